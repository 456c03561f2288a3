// A lamp with a dark frame. Its colour is the frame's, so the glass stands inside.
import QtQuick 2.15

Rectangle {
    width: 28
    height: 28
    color: "#10141f"

    Rectangle { x: 4; y: 4; width: 20; height: 20; color: "darkgray" }
}
