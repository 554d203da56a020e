## Broken: template.s with a register of cluster 1 in an operation of cluster 0. assemble refuses it with 18 and names the line.
##
## Registers of cluster 0, general ones and a branch register; they start at 0, and $r0.0 stays 0:
##   $r0.1  frame  what this frame adds to every pixel
##   $r0.2  at     the address of the pixel, 0 to 4095
##   $r0.3  last   the address of the last pixel
##   $r0.4  x      the pixel's column
##   $r0.5  y      its line
##   $r0.6  v      its value
##   $b0.0  more   whether there is a pixel after this one

frame:
    c0 add    $r0.3 = $r0.0, 255              ## one instruction with two operations: last, to be finished below,
    c0 add    $r0.2 = $r0.0, 0                ## and at, which goes back to the first pixel
;;
    c0 sh4add $r0.3 = $r0.3, 15               ## last = 16 * 255 + 15 = 4095: an immediate goes to 1023 only
;;
pixels:
    c0 and    $r0.4 = $r0.2, 64-1             ## x is in the low six bits of at
    c0 shru   $r0.5 = $r1.2, 6                ## broken: y is in the bits above them, but at is $r0.2
    c0 cmplt  $b0.0 = $r0.2, $r0.3            ## more, which is due two instructions on
;;
    c0 xor    $r0.6 = $r0.4, $r0.5            ## the weave: x and y crossed
;;
    c0 sh2add $r0.6 = $r0.6, $r0.1            ## four times as bright, and brighter with each frame
;;
    c0 stb    0[$r0.2] = $r0.6                ## the pixel is drawn
    c0 add    $r0.2 = $r0.2, 1                ## on to the next one,
    c0 br     $b0.0, pixels                   ## if there is one
;;
    c0 add    $r0.1 = $r0.1, 16               ## the next frame is brighter by 16
    c0 goto   frame                           ## and begins where this one began
;;
