// A panel with a title and one row after another, as high as its rows need.
Rectangle {
    id: panel

    property int rows: 1
    property int rowHeight: 28
    readonly property int far: x + width
    readonly property int low: y + height

    height: title.height + rows * rowHeight
    color: "#2d333f"

    Rectangle { id: title; width: panel.width; height: 32; color: "steelblue" }
    Rectangle { x: 8; y: title.height + 6; width: panel.width - 16; height: panel.height - title.height - 12; color: "#8a93a6" }
}
