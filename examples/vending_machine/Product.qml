// A product behind its glass: how many are left, and what one costs. Whoever takes the last one hears of it.
Rectangle {
    id: product

    property string name: "product"
    property int price: 100
    property int stock: 4
    property color wrapping: "silver"
    readonly property bool there: stock > 0

    signal soldOut(string what)

    function take() { stock-- }

    onThereChanged: if (!there) soldOut(name)

    width: 120
    height: 150
    color: there ? "#2d333f" : "maroon"

    // What is left stands in one pile.
    Rectangle {
        x: 20
        y: product.height - 10 - height
        width: product.width - 40
        height: 30 * product.stock
        color: product.wrapping
    }
}
