# The small board's service keys: eight codes of eight digits, each of which opens a door with no car behind it. They are
# bytes alone. The board's start hands nothing over that may load or store there, so that no image can tell what they are.

.text
.globl _start
_start:
  .irp code, 40917723, 11862950, 73340218, 95526104, 20483367, 68019945, 37751482, 84236091
  .ascii "\code"
  .endr
