// A page of messages with a header, a side bar and a footer, and over it a dialog that dims it.
// All places follow from anchors: give the page another size, and all of it moves along.
import QtQuick 2.15

Rectangle {
    id: page
    anchors.fill: parent
    color: "#eef1f5"

    property int unread: 3
    property bool asking: false

    // Asks whether the messages are to be thrown away.
    function ask() { asking = true }

    Rectangle {
        id: header
        anchors { left: parent.left; right: parent.right; top: parent.top }
        height: 48
        color: "#2b3a55"

        Rectangle {
            id: logo
            anchors { left: parent.left; leftMargin: 16; verticalCenter: parent.verticalCenter }
            width: 24; height: 24
            color: "gold"
        }
        Words { anchors { left: logo.right; leftMargin: 12; verticalCenter: logo.verticalCenter } length: 140; color: "white" }

        Rectangle {
            id: bell
            anchors { right: parent.right; rightMargin: 20; verticalCenter: parent.verticalCenter }
            width: 28; height: 28
            color: "#3d5277"
            Badge { anchors { horizontalCenter: parent.right; verticalCenter: parent.top } count: page.unread }
        }
    }

    Rectangle {
        id: footer
        anchors { left: parent.left; right: parent.right; bottom: parent.bottom }
        height: 32
        color: "#d5dbe5"

        // As far from the right edge as from the left one.
        Rectangle {
            anchors { left: parent.left; leftMargin: 136; horizontalCenter: parent.horizontalCenter; verticalCenter: parent.verticalCenter }
            height: 6
            color: "#b4becd"
            Rectangle { anchors { left: parent.left; top: parent.top; bottom: parent.bottom } width: parent.width * 2 / 3; color: "steelblue" }
        }
    }

    Rectangle {
        id: bar
        anchors { left: parent.left; top: header.bottom; bottom: footer.top }
        width: 120
        color: "#dfe4ec"

        Words { id: inbox; anchors { left: parent.left; top: parent.top; margins: 16 } length: 72; color: "#2b3a55" }
        Words { id: sent; anchors { left: inbox.left; top: inbox.bottom; topMargin: 16 } length: 56 }
        Words { id: drafts; anchors { left: inbox.left; top: sent.bottom; topMargin: 16 } length: 64 }

        // The mark beside the entry that is shown.
        Rectangle { anchors { left: parent.left; verticalCenter: inbox.verticalCenter } width: 4; height: 22; color: "gold" }
    }

    // What does not fit in here is cut off.
    Item {
        id: list
        anchors { left: bar.right; right: parent.right; top: header.bottom; bottom: footer.top; margins: 16; bottomMargin: 0 }
        clip: true

        Message { id: first; anchors { left: parent.left; right: parent.right; top: parent.top } unread: true }
        Message { id: second; anchors { left: parent.left; right: parent.right; top: first.bottom; topMargin: 12 } unread: true }
        Message { id: third; anchors { left: parent.left; right: parent.right; top: second.bottom; topMargin: 12 } unread: true }
        Message { id: fourth; anchors { left: parent.left; right: parent.right; top: third.bottom; topMargin: 12 } }
        Message { id: fifth; anchors { left: parent.left; right: parent.right; top: fourth.bottom; topMargin: 12 } }
    }

    // Dims the page while the dialog asks.
    Rectangle {
        z: 1
        anchors.fill: parent
        visible: dialog.visible
        color: "#a0101828"
    }

    Card {
        id: dialog
        z: 2
        anchors.centerIn: parent
        width: 320
        height: strip.height + text.height + buttons.height + 56
        visible: page.asking

        Rectangle {
            id: strip
            anchors { left: parent.left; right: parent.right; top: parent.top; margins: 1 }
            height: 36
            color: "#f4f6f9"
            Words { anchors { left: parent.left; leftMargin: 16; verticalCenter: parent.verticalCenter } length: 120; color: "#2b3a55" }
        }

        // As large as its lines.
        Item {
            id: text
            anchors { left: parent.left; leftMargin: 17; top: strip.bottom; topMargin: 18 }
            width: childrenRect.width
            height: childrenRect.height
            Words { id: line; length: 270 }
            Words { id: next; anchors { left: line.left; top: line.bottom; topMargin: 8 } length: 248 }
            Words { anchors { left: line.left; top: next.bottom; topMargin: 8 } length: 110 }
        }

        Item {
            id: buttons
            anchors { left: parent.left; right: parent.right; bottom: parent.bottom; margins: 17 }
            implicitHeight: 30
            Button { id: yes; anchors { right: parent.right; top: parent.top; bottom: parent.bottom } main: true }
            Button { id: no; anchors { right: yes.left; rightMargin: 12; top: yes.top; bottom: yes.bottom } }
        }
    }

    Component.onCompleted: {
        console.log("closed: yes is seen", yes.visible)
        ask()
        console.log("open: yes is seen", yes.visible)
        console.log("dialog", dialog.x, dialog.y, dialog.width, dialog.height)
        console.log("text", text.width, text.height, "yes", yes.x, yes.width, "no", no.x, no.width)
        console.log("list", list.x, list.y, list.width, list.height, "of", list.childrenRect.height)
    }
}
