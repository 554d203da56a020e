## Broken: gradient.s, but cluster 0 does not go back to the first pixel when a frame begins. It loads and passes the check; run draws two
## frames and faults with 13 at a store behind the memory.
##
## A soft light that drifts over the frame: the pixel at x, y of frame f is wave(x + 4f) * wave(y + 2f) / 256, where wave(u) is
## u * (63 - u) / 4 for the low six bits of u. Cluster 0 draws the even pixels, cluster 1 the odd ones.
##
## Registers, the same in both clusters; below they are called by these names:
##    1  frame    f                                 10  x        where the wave of the pixel's column stands
##    2  base     4096, behind the frame            11  x_end    behind the waves of the columns; cluster 0
##    3  i        counts waves                      12  row      where the wave of the line stands
##    4  at       where a wave goes                 13  row_end  behind the waves of the lines; cluster 0
##    5  u        the wave's place, low six bits    14  level    the line's wave
##    6  m        63 - u                            15  c        the column's wave
##    7  p        u * m                             16  v        c * level
##    8  q        the wave                          17  w        the pixel
##    9  out      the pixel's address
## $b0.0 whether there are more waves, later pixels; $b0.1 whether there are more lines. The waves of the columns stand at base + 64, those of the
## lines at base + 192.

frame:
    c0 add    $r0.2 = $r0.0, 256              ## base, to be finished below
    c0 add    $r0.3 = $r0.0, 0                ## i: the first column; broken: out stays behind the frame before
    c1 add    $r1.2 = $r1.0, 256              ## the same in cluster 1,
    c1 add    $r1.3 = $r1.0, 0                ## for the first line
    c1 add    $r1.9 = $r1.0, 1                ## and the second pixel
    c1 copy   $r1.1 = $r0.1                   ## cluster 0 counts the frames, cluster 1 is told
;;
    c0 sh4add $r0.2 = $r0.2, 0                ## base = 16 * 256: an immediate goes to 1023 only
    c1 sh4add $r1.2 = $r1.2, 0
;;
    c0 add    $r0.4 = $r0.2, 64-1             ## at: one before the waves of the columns
    c0 add    $r0.12 = $r0.2, 192             ## row: the first line's wave
    c0 add    $r0.13 = $r0.2, 192+64          ## row_end: behind the last line's
    c0 add    $r0.11 = $r0.2, 64+64           ## x_end: behind the last column's
    c1 add    $r1.4 = $r1.2, 192-1            ## at: one before the waves of the lines
    c1 add    $r1.12 = $r1.2, 192             ## row: the first line's wave
;;

## The waves: cluster 0 makes those of the columns, cluster 1 those of the lines. A product is stored one turn later, so the first turn stores
## nothing of use, before the table, and turn 64 stores the last.
waves:
    c0 sh2add $r0.5 = $r0.1, $r0.3            ## u = 4 * frame + i: the columns drift by 4
    c1 sh1add $r1.5 = $r1.1, $r1.3            ## u = 2 * frame + i: the lines drift by 2
;;
    c0 and    $r0.5 = $r0.5, 64-1             ## u: its low six bits
    c0 shru   $r0.8 = $r0.7, 2                ## q: the product of the turn before, by 4
    c0 cmplt  $b0.0 = $r0.3, 64               ## are there more? due at the branch, two instructions on
    c1 and    $r1.5 = $r1.5, 64-1             ## the same for the lines
    c1 shru   $r1.8 = $r1.7, 2
;;
    c0 sub    $r0.6 = 63, $r0.5               ## m = 63 - u
    c0 stb    0[$r0.4] = $r0.8                ## the wave of the turn before goes to the table
    c1 sub    $r1.6 = 63, $r1.5
    c1 stb    0[$r1.4] = $r1.8
;;
    c0 mpyll  $r0.7 = $r0.5, $r0.6            ## p = u * m, due in the next turn
    c0 add    $r0.3 = $r0.3, 1                ## i: the next column
    c0 add    $r0.4 = $r0.4, 1                ## at: its byte
    c0 br     $b0.0, waves                    ## until all 64 are stored
    c1 mpyll  $r1.7 = $r1.5, $r1.6            ## the same for the lines
    c1 add    $r1.3 = $r1.3, 1
    c1 add    $r1.4 = $r1.4, 1
;;

line:
    c0 ldbu   $r0.14 = 0[$r0.12]              ## level: how bright the line is, due three instructions on
    c0 add    $r0.10 = $r0.2, 64              ## x: the first column's wave
    c1 ldbu   $r1.14 = 0[$r1.12]              ## both clusters draw pixels of one line
    c1 add    $r1.10 = $r1.2, 64+1            ## x: the second column's wave
;;
    c0 ldbu   $r0.15 = 0[$r0.10]              ## c: how bright the first pixel's column is
    c0 add    $r0.12 = $r0.12, 1              ## row: the next line's wave
    c1 ldbu   $r1.15 = 0[$r1.10]              ## the same for the second pixel
    c1 add    $r1.12 = $r1.12, 1
;;
    c0 add    $r0.10 = $r0.10, 2              ## x: the even pixel after it
    c0 cmplt  $b0.1 = $r0.12, $r0.13          ## is there a line after this one?
    c1 add    $r1.10 = $r1.10, 2              ## x: the odd pixel after it
;;
    c0 nop                                    ## c is not due yet
;;
    c0 mpyll  $r0.16 = $r0.15, $r0.14         ## v: the first pixel's product
    c1 mpyll  $r1.16 = $r1.15, $r1.14         ## and the second one's
;;

## A turn stores one pixel while the next is loaded and multiplied: its product is in flight over the branch.
pixels:
    c0 ldbu   $r0.15 = 0[$r0.10]              ## c: the column of the next pixel
    c1 ldbu   $r1.15 = 0[$r1.10]
;;
    c0 shru   $r0.17 = $r0.16, 8              ## w: this pixel's product, by 256
    c0 add    $r0.10 = $r0.10, 2              ## x: the even pixel after the next
    c0 cmplt  $b0.0 = $r0.10, $r0.11          ## was there a next one?
    c1 shru   $r1.17 = $r1.16, 8              ## the same for the odd pixel
    c1 add    $r1.10 = $r1.10, 2
;;
    c0 stb    0[$r0.9] = $r0.17               ## the even pixel is drawn
    c1 stb    0[$r1.9] = $r1.17               ## and the odd one beside it
;;
    c0 mpyll  $r0.16 = $r0.15, $r0.14         ## v: the next pixel's product
    c0 add    $r0.9 = $r0.9, 2                ## out: the next even pixel
    c0 br     $b0.0, pixels                   ## until the line is full
    c1 mpyll  $r1.16 = $r1.15, $r1.14         ## the same for the odd pixel
    c1 add    $r1.9 = $r1.9, 2
;;
    c0 br     $b0.1, line                     ## until the frame is full
;;
    c0 add    $r0.1 = $r0.1, 1                ## the next frame
    c0 goto   frame
;;
