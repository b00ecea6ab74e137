// Absent from kira's text as we have it, and not used by any scene.
