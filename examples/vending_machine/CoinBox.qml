// Coins go in, and what is too much comes out again, the greatest coins first.
Rectangle {
    id: box

    property int credit: 0
    property int kept: 0

    signal inserted(int coin)
    signal refused(int coin)
    signal returned(int coin, int count)

    function isKnown(coin) { return coin == 200 || coin == 100 || coin == 50 || coin == 20 || coin == 10 }
    function coinAfter(coin) { return coin == 200 ? 100 : coin == 100 ? 50 : coin == 50 ? 20 : coin == 20 ? 10 : 0 }

    function insert(coin) {
        if (!isKnown(coin)) {
            refused(coin)
            return
        }
        credit += coin
        inserted(coin)
    }

    function pay(price) {
        credit -= price
        kept += price
    }

    function giveBack() {
        for (var coin = 200; coin > 0; coin = coinAfter(coin)) {
            const count = credit / coin
            if (count > 0) {
                credit -= count * coin
                returned(coin, count)
            }
        }
    }

    width: 120
    height: 40
    color: "#101318"

    Rectangle { x: 4; y: 4; width: Math.min(box.credit * (box.width - 8) / 400, box.width - 8); height: box.height - 8; color: "gold" }
}
