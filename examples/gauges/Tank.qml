// A tank of 120 by 320 pixels with a scale on its left wall. What it holds is put into it where it is used.
import QtQuick 2.15

Rectangle {
    id: wall

    property string content: "empty"
    property int litres: 0

    width: 120
    height: 320
    color: "#10141f"

    Mark { y: 40; width: 24 }
    Mark { y: 100 }
    Mark { y: 160; width: 24 }
    Mark { y: 220 }
    Mark { y: 280; width: 24 }
}
