// A tank of so many litres that holds so many of them.
Rectangle {
    id: tank

    property string name: "tank"
    property int capacity: 1000
    property int litres: 0
    readonly property int percent: capacity > 0 ? 100 * litres / capacity : 0
    readonly property bool full: percent >= 90
    property color water: "steelblue"

    width: 120
    height: 200
    color: "#2d333f"

    // The water stands at the bottom.
    Rectangle {
        x: 4
        y: tank.height - 4 - height
        width: parent.width - 8
        height: (tank.height - 8) * Math.min(tank.percent, 100) / 100
        color: full ? "tomato" : water
    }

    // Ten marks, and the pointer at the level.
    Mark { step: 2 }
    Mark { step: 4 }
    Mark { step: 6 }
    Mark { step: 8 }
    Rectangle { x: tank.width; y: tank.height - 4 - percent * (tank.height - 8) / 100; width: 14; height: 3; color: "white" }
}
