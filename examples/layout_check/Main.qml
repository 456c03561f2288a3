// A page of three panels that checks its own layout when it is made, at three widths, and logs what it finds.
// The last width is too narrow on purpose, so the lamp at the bottom is red.
import QtQuick 2.15

Rectangle {
    id: page

    property int gap: 16
    readonly property int column: (width - 4 * gap) / 3
    property int checked: 0
    property int failed: 0
    property int sum: 0

    width: 640
    height: 480
    color: "#20242c"

    Panel { id: west; x: gap; y: gap; width: column; rows: 3 }
    Panel { id: middle; x: west.far + gap; y: gap; width: column; rows: 8 }
    Panel { id: east; x: middle.far + gap; y: gap; width: page.width - gap - x; rows: 12 }

    Rectangle { id: lamp; x: gap; y: page.height - gap - height; width: 24; height: 24; color: failed == 0 ? "lime" : "tomato" }

    // One line for each thing that is checked.
    function check(what, holds) {
        checked++
        if (holds) {
            console.log("ok  ", what)
            return
        }
        failed++
        console.log("FAIL", what)
    }

    function isWithin(panel) { return panel.x >= 0 && panel.y >= 0 && panel.far <= width && panel.low <= height }
    function areApart(one, other) { return other.x - one.far == gap }

    // One number that tells two layouts apart: the remainders of two sums, as in Adler's checksum.
    function checksum() {
        var low = 1
        var high = 0
        for (var i = 0; i < 12; i++) {
            var panel = i % 3 == 0 ? west : i % 3 == 1 ? middle : east
            low = (low + (i < 3 ? panel.x : i < 6 ? panel.y : i < 9 ? panel.width : panel.height)) % 65521
            high = (high + low) % 32749
        }
        sum = high * 65521 + low
    }

    function checkAll() {
        console.log("width", width)
        check("the panels stand within the page", isWithin(west) && isWithin(middle) && isWithin(east))
        check("the gaps between them are equal", areApart(west, middle) && areApart(middle, east))
        check("the columns differ by less than three pixels", Math.abs(east.width - west.width) < 3)
        check("each column has room for its rows", column >= 80)
        check("the lamp is below the panels", lamp.y > Math.max(west.low, Math.max(middle.low, east.low)))
        checksum()
    }

    onSumChanged: console.log("sum", sum)
    onFailedChanged: console.log("failures so far:", failed)

    Component.onCompleted: {
        checkAll()
        for (var wanted = 500; wanted > 200; wanted -= 250) {
            width = wanted
            checkAll()
        }
        width = 640
        console.log(checked, "checked,", failed, "failed")
    }
}
