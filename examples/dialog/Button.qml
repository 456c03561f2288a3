// A button with its word in the middle: filled where it does the main thing, else with an edge.
Rectangle {
    property bool main: false
    width: word.width + 48
    color: main ? "tomato" : "white"
    border { width: main ? 0 : 1; color: "#8a96a8" }
    Words { id: word; anchors.centerIn: parent; length: 36; color: parent.main ? "white" : "#2b3a55" }
}
