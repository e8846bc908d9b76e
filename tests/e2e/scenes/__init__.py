"""The actions and the view of a user, scene by scene. Each scene has a session and a folder of its own."""
