Rectangle {
    width: 640; height: 480; color: "#ffffff";

    Rectangle {
        x: 60; y: 40; width: 540; height: 380; color: "#f4f6fa";

        Rectangle { x: 0; y: 95; width: 540; height: 1; color: "#c8ccd4" }
        Rectangle { x: 0; y: 190; width: 540; height: 1; color: "#c8ccd4" }
        Rectangle { x: 0; y: 285; width: 540; height: 1; color: "#c8ccd4" }

        Rectangle { x: 30; y: 260; width: 60; height: 120; color: "#3b6ea5" }
        Rectangle { x: 120; y: 180; width: 60; height: 200; color: "#3b6ea5" }
        Rectangle { x: 210; y: 220; width: 60; height: 160; color: "#3b6ea5" }
        Rectangle { x: 300; y: 90; width: 60; height: 290; color: "#3b6ea5" }
        Rectangle { x: 390; y: 140; width: 60; height: 240; color: "#3b6ea5";
            Rectangle { width: 60; height: 60; color: "#e07b39" } }
        Rectangle { x: 480; y: 40; width: 60; height: 340; color: "#3b6ea5" }
    }

    Rectangle { x: 60; y: 420; width: 540; height: 3; color: "#30343c" }
    Rectangle { x: 57; y: 40; width: 3; height: 383; color: "#30343c" }
}
