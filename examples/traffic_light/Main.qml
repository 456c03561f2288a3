Rectangle {
    width: 640; height: 480; color: "#d8dee9";

    Rectangle {
        x: 240; y: 40; width: 160; height: 400; color: "#2e3440";

        Rectangle { x: 40; y: 30; width: 80; height: 80; color: "#bf2030" }
        Rectangle { x: 40; y: 160; width: 80; height: 80; color: "#4c4a2a" }
        Rectangle { x: 40; y: 290; width: 80; height: 80; color: "#24402c" }
    }
}
