// A lamp. The height is misspelt: its type has no such property.
import QtQuick 2.15

Rectangle {
    property bool lit: false
    width: 40; heigth: 40
    color: "gold"
}
