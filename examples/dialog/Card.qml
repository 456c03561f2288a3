// A white card with a thin edge, which throws a shadow to the lower right.
Rectangle {
    color: "white"
    border { width: 1; color: "#8a96a8" }

    Rectangle {
        z: -1
        anchors { fill: parent; leftMargin: 6; topMargin: 6; rightMargin: -6; bottomMargin: -6 }
        color: "#50000000"
    }
}
