// Three tanks whose levels depend on each other, and a bar for all of them together.
import QtQuick 2.15

Rectangle {
    id: panel

    property int gap: 40
    property int inflow: 600
    readonly property int total: rain.litres + store.litres + spill.litres
    readonly property int room: rain.capacity + store.capacity + spill.capacity

    width: 640
    height: 480
    color: "#20242c"

    Tank {
        id: rain
        name: "rain"
        x: panel.gap
        y: panel.gap
        capacity: 400
        litres: Math.min(panel.inflow, capacity)
    }

    // It gets what the first tank has no room for.
    Tank {
        id: store
        name: "store"
        x: rain.x + rain.width + panel.gap
        y: rain.y
        width: 2 * rain.width
        capacity: 1000
        litres: Math.max(panel.inflow - rain.capacity, 0)
    }

    Tank {
        id: spill
        name: "spill"
        x: store.x + store.width + panel.gap
        y: rain.y + rain.height - height
        width: rain.width / 2
        height: rain.height / 2
        capacity: 200
        litres: store.full ? 100 : 20
        water: "lightsteelblue"
    }

    // All together, in one bar whose width is the part that is filled.
    Rectangle {
        id: bar
        x: panel.gap
        y: panel.height - 3 * height
        width: panel.width - 2 * panel.gap
        height: 24
        color: "#2d333f"

        Rectangle {
            width: parent.width * total / room
            height: parent.height
            color: total * 2 > room ? "orange" : "lime"
        }
    }
}
