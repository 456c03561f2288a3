// How many things wait: a dot for each, up to three. It isn't there where none does.
Rectangle {
    id: badge
    property int count: 0
    visible: count > 0
    width: dots.width + 10
    height: 14
    color: "tomato"
    border { width: 2; color: "#2b3a55" }

    Item {
        id: dots
        anchors.centerIn: parent
        width: childrenRect.width
        height: 2
        Rectangle { id: one; width: 2; height: 2; color: "white" }
        Rectangle { id: two; anchors { left: one.right; leftMargin: badge.count > 1 ? 2 : 0 } width: badge.count > 1 ? 2 : 0; height: 2; color: "white" }
        Rectangle { anchors { left: two.right; leftMargin: badge.count > 2 ? 2 : 0 } width: badge.count > 2 ? 2 : 0; height: 2; color: "white" }
    }
}
