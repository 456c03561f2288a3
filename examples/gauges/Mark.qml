// A mark of a scale.
import QtQuick 2.15

Rectangle {
    width: 14
    height: 2
    color: "silver"
}
