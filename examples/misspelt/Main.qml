// Two lamps in a row.
import QtQuick 2.15

Item {
    Lamp { x: 20; y: 20 }
    Lamp { x: 80; y: 20; lit: true }
}
