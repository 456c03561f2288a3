// A line of text, of so many pixels, as long as there are no letters.
Rectangle {
    property int length: 0
    implicitWidth: length
    implicitHeight: 10
    color: "#98a2b3"
}
