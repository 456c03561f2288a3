Rectangle {
    width: 640; height: 480; color: "#1c2230";

    Rectangle {
        x: 20; y: 20; width: 600; height: 60; color: "#273248";
        Rectangle { x: 20; y: 20; width: 20; height: 20; color: "#38c172" }
        Rectangle { x: 60; y: 26; width: 180; height: 8; color: "#8fa3bf" }
        Rectangle { x: 540; y: 15; width: 40; height: 30; color: "#e3342f" }
    }

    Rectangle {
        x: 20; y: 100; width: 290; height: 360; color: "#232c40";

        Rectangle { x: 30; y: 30; width: 40; height: 300; color: "#10141f";
            Rectangle { x: 5; y: 120; width: 30; height: 175; color: "#3490dc" } }
        Rectangle { x: 125; y: 30; width: 40; height: 300; color: "#10141f";
            Rectangle { x: 5; y: 60; width: 30; height: 235; color: "#38c172" } }
        Rectangle { x: 220; y: 30; width: 40; height: 300; color: "#10141f";
            Rectangle { x: 5; y: 210; width: 30; height: 85; color: "#f6993f" } }
    }

    Rectangle {
        x: 330; y: 100; width: 290; height: 360; color: "#232c40";

        Rectangle { x: 20; y: 20; width: 250; height: 150; color: "#0b0f18";
            Rectangle { x: 10; y: 100; width: 30; height: 2; color: "#38c172" }
            Rectangle { x: 40; y: 60; width: 2; height: 42; color: "#38c172" }
            Rectangle { x: 40; y: 60; width: 70; height: 2; color: "#38c172" }
            Rectangle { x: 110; y: 60; width: 2; height: 62; color: "#38c172" }
            Rectangle { x: 110; y: 120; width: 120; height: 2; color: "#38c172" } }

        Rectangle { x: 20; y: 190; width: 115; height: 65; color: "#3d4a66" }
        Rectangle { x: 155; y: 190; width: 115; height: 65; color: "#3d4a66" }
        Rectangle { x: 20; y: 275; width: 115; height: 65; color: "#3d4a66" }
        Rectangle { x: 155; y: 275; width: 115; height: 65; color: "#e3342f" }
    }
}
