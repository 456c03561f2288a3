// The panel of a room's thermostat. All of it parses, and all but its mouse area would run;
// these don't run yet, so the program says where the first one stands.
import QtQuick 2.15

Rectangle {
    width: 320
    height: 240
    color: "#20242c"

    Rectangle { x: 20; y: 20; width: 280; height: 40; color: "#2d333f" }

    /* The measured and the wanted temperature, in tenths of a degree. */
    property int measured: 187
    property int wanted: 210
    property int hysteresis: 5
    readonly property bool heating: measured < wanted - hysteresis
    signal saved(int value, string room)

    function clamp(value) { return Math.max(50, Math.min(300, value)) }

    // Numbers are whole: 215 / 10 is 21.
    function degrees(value) { return value / 10 + "." + value % 10 + " \u00b0C" }

    onSaved: console.log(room + ": " + degrees(value))

    Rectangle {
        id: bar
        x: 20
        y: 220 - height
        width: 40
        height: (wanted - 50) * 140 / 250
        color: heating ? "#d8572a" : "#3b7dd8"
        border { width: 2; color: "#101318" }
    }

    MouseArea {
        anchors.fill: parent

        // The upper half makes it warmer, the lower half colder.
        onClicked: {
            var step = 5
            if (mouse.y >= height / 2) step = -step
            wanted = clamp(wanted + step)
            saved(wanted, "hall")
        }
    }

    Component.onCompleted: if (heating) console.log("heating from the start")
}
