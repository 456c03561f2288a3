// The tanks of a plant, seen on a panel. A tank, a mark of its scale and a lamp are documents of their own.
import QtQuick 2.15

Rectangle {
    id: panel
    width: 640
    height: 480
    color: "#1c2230"

    Rectangle { width: 640; height: 56; color: "steelblue"
        Lamp { x: 548; y: 14 }
        Lamp { x: 592; y: 14
            Rectangle { x: 4; y: 4; width: 20; height: 20; color: "lime" } }
    }

    Item {
        x: 60
        y: 110

        Tank {
            id: water
            content: "water"
            litres: 640

            Rectangle { x: 30; y: 100; width: 86; height: 216; color: "#3490dc" }
        }

        Tank {
            id: oil
            x: 200
            content: "oil"
            litres: 210

            Rectangle { x: 30; y: 240; width: 86; height: 76; color: "gold" }
        }

        // This one is fuller than it may be, and shows it.
        Tank {
            id: acid
            x: 400
            color: "maroon"
            content: "acid"
            litres: 905

            Rectangle { x: 30; y: 24; width: 86; height: 292; color: "tomato" }
            Mark { y: 22; width: 120; height: 4; color: "white" }
        }
    }

    Rectangle { x: 40; y: 440; width: 560; height: 6; color: "#3d4a66" }
}
