// A mark at so many tenths of the tank that it stands in.
Rectangle {
    property int step: 0

    x: parent.width - width
    y: parent.height - 4 - step * (parent.height - 8) / 10
    width: step % 4 == 0 ? 24 : 12
    height: 1
    color: "#8a93a6"
}
