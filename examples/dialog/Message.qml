// A message of the list: a picture, two lines, and a veil over it once it is read.
Rectangle {
    id: message
    property bool unread: false
    height: 76
    color: "white"
    border.color: "#cfd6e0"

    Rectangle {
        id: picture
        anchors { left: parent.left; leftMargin: 14; verticalCenter: parent.verticalCenter }
        width: 48; height: 48
        color: "lightsteelblue"
        Rectangle { anchors { fill: parent; margins: 14 } color: "#2b3a55" }
    }
    Words { id: subject; anchors { left: picture.right; leftMargin: 14; top: picture.top; topMargin: 6 } length: 220; color: "#2b3a55" }
    Words { anchors { left: subject.left; right: parent.right; rightMargin: 14; bottom: picture.bottom; bottomMargin: 6 } }

    Rectangle { anchors { right: parent.right; top: parent.top; margins: 14 } width: 8; height: 8; color: "steelblue"; visible: message.unread }
    Rectangle { z: 1; anchors { fill: parent; margins: 1 } color: "#90ffffff"; visible: !message.unread }
}
