// A vending machine. It waits for coins, then for a choice; it sells, or says why not, and gives the rest back.
// A morning at the machine is played when it is made, and the picture shows what is left at noon.
import QtQuick 2.15

Rectangle {
    id: machine

    // One of waiting, choosing and closed.
    property string phase: "waiting"
    property int sales: 0
    readonly property bool empty: !water.there && !juice.there && !nuts.there

    signal sold(Product product, int rest)
    signal rejected(string why)

    width: 640
    height: 480
    color: phase == "closed" ? "#402020" : "#20242c"

    Product { id: water; x: 40; y: 40; name: "water"; price: 90; stock: 1; wrapping: "lightsteelblue"; onSoldOut: machine.runOut(what) }
    Product { id: juice; x: 200; y: 40; name: "juice"; price: 160; stock: 3; wrapping: "orange"; onSoldOut: machine.runOut(what) }
    Product { id: nuts; x: 360; y: 40; name: "nuts"; price: 120; stock: 1; wrapping: "brown"; onSoldOut: machine.runOut(what) }

    CoinBox {
        id: coins
        x: 40
        y: 240
        onInserted: if (machine.phase == "waiting") machine.phase = "choosing"
        onRefused: machine.rejected("no coin of " + coin)
        onReturned: console.log("    out:", count, "of", coin)
    }

    // A column that grows with each sale.
    Rectangle { x: 520; y: machine.height - height - 20; width: 60; height: 40 * sales; color: "lime" }

    function choose(product) {
        if (phase == "closed") {
            rejected("the machine is closed")
        } else if (phase == "waiting") {
            rejected("no money")
        } else if (!product.there) {
            rejected("no " + product.name + " left")
        } else if (coins.credit < product.price) {
            rejected(product.price - coins.credit + " more for " + product.name)
        } else {
            coins.pay(product.price)
            product.take()
            sold(product, coins.credit)
        }
    }

    function cancel() {
        coins.giveBack()
        if (phase == "choosing") phase = "waiting"
    }

    function runOut(what) { console.log("    the last of", what) }

    onSold: {
        sales++
        console.log("  sold", product.name, "with a rest of", rest)
        cancel()
    }
    onRejected: console.log("  rejected:", why)
    onPhaseChanged: console.log("  now", phase)
    onEmptyChanged: if (empty) phase = "closed"

    Component.onCompleted: {
        console.log("a choice without money")
        choose(water)

        console.log("water for a coin of 200")
        coins.insert(200)
        choose(water)

        console.log("a button, 50 and 20, and a change of mind")
        coins.insert(7)
        coins.insert(50)
        coins.insert(20)
        choose(water)
        choose(nuts)
        cancel()

        console.log("juice until none is left")
        while (juice.there) {
            coins.insert(100)
            if (coins.credit >= juice.price) choose(juice)
        }

        console.log("the last nuts")
        coins.insert(100)
        coins.insert(20)
        choose(nuts)
        choose(nuts)
        console.log(sales, "sold,", coins.kept, "in the box")
    }
}
