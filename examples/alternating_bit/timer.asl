// Rings once: whatever was sent last is sent once more, whether it came or not.

!ring.

+!ring <- .send(sender, achieve, send).
