## Broken: zoom.s with the store of a pixel moved up by one, to two instructions after its load, which takes three. check refuses it
## with 9 and names the two instructions.
##
## A checkered floor that goes away and comes near again: the pixel at x, y, counted from the middle, has the shade of bits 8 and 7 of
## x * scale xor y * scale, where scale goes from 8 to 39 and back. Cluster 0 draws the upper half, cluster 1 the lower.
##
## Registers, the same in both clusters; below they are called by these names:
##    1  frame    f; cluster 0                           8  x    the pixel's column, -32 to 31
##    2  base     4096, where the four shades stand      9  y    its line, -32 to 31
##    3  g        how far the zoom is; cluster 0        10  v    y * scale
##    4  h        63 - g; cluster 0                     11  u    x * scale
##    5  scale    how far away the floor is             12  z    which shade the pixel has
##    6  shade    a shade on its way to the table       13  zp   where it stands
##    7  out      the pixel's address                   14  c    the pixel
## $b0.0 whether the floor goes away; $b0.1 whether there are more pixels; $b0.2 whether there are more lines.

frame:
    c0 add    $r0.2 = $r0.0, 256              ## base, to be finished below
    c0 shl    $r0.3 = $r0.1, 3                ## g: the zoom goes on by 8 in each frame
    c0 add    $r0.7 = $r0.0, 0                ## out: the first pixel
    c0 add    $r0.9 = $r0.0, 0-32             ## y: the first line of the upper half
    c1 add    $r1.2 = $r1.0, 256              ## base, of cluster 1 too
    c1 add    $r1.9 = $r1.0, 0                ## y: the first line of the lower half
;;
    c0 sh4add $r0.2 = $r0.2, 0                ## base = 16 * 256: an immediate goes to 1023 only
    c0 and    $r0.3 = $r0.3, 64-1             ## g: eight frames there and back
    c0 add    $r0.6 = $r0.0, 24               ## shade 0, the darkest
    c1 sh4add $r1.2 = $r1.2, 0
    c1 sh3add $r1.7 = $r1.2, 0                ## out = 8 * 256: the first pixel of the lower half
    c1 add    $r1.6 = $r1.0, 104              ## shade 1
;;
    c0 cmplt  $b0.0 = $r0.3, 32               ## does the floor go away? due two instructions on
    c0 sub    $r0.4 = 63, $r0.3               ## h: g on its way back
    c0 stb    0[$r0.2] = $r0.6                ## shade 0 goes to the table
    c1 stb    1[$r1.2] = $r1.6                ## and shade 1 behind it
;;
    c0 add    $r0.6 = $r0.0, 176              ## shade 2
    c1 add    $r1.6 = $r1.0, 248              ## shade 3, the lightest
;;
    c0 slct   $r0.5 = $b0.0, $r0.3, $r0.4     ## scale: g while the floor goes away, else h
    c0 stb    2[$r0.2] = $r0.6                ## shade 2 goes to the table
    c1 stb    3[$r1.2] = $r1.6                ## and shade 3 behind it
;;
    c0 add    $r0.5 = $r0.5, 8                ## scale: at least 8
;;
    c1 copy   $r1.5 = $r0.5                   ## and cluster 1 is told; cluster 0 idles, with a nop
;;

line:
    c0 mpyll  $r0.10 = $r0.9, $r0.5           ## v = y * scale, for the whole line
    c0 add    $r0.8 = $r0.0, 0-32             ## x: the first pixel
    c0 add    $r0.9 = $r0.9, 1                ## y: the next line
    c0 cmplt  $b0.2 = $r0.9, 0-1              ## is there one in the upper half?
    c1 mpyll  $r1.10 = $r1.9, $r1.5           ## the same in the lower half
    c1 add    $r1.8 = $r1.0, 0-32
    c1 add    $r1.9 = $r1.9, 1
;;

## A pixel takes two turns of five instructions, and the first half of one stands beside the second half of the one before. A line starts with
## a first half alone.
    c0 mpyll  $r0.11 = $r0.8, $r0.5           ## u = x * scale, due two instructions on
    c1 mpyll  $r1.11 = $r1.8, $r1.5
;;
    c0 add    $r0.8 = $r0.8, 1                ## x: the next pixel
    c1 add    $r1.8 = $r1.8, 1
;;
    c0 xor    $r0.12 = $r0.11, $r0.10         ## z: the checks, column crossed with line
    c1 xor    $r1.12 = $r1.11, $r1.10
;;
    c0 shru   $r0.12 = $r0.12, 7              ## z: a check is 128 wide
    c1 shru   $r1.12 = $r1.12, 7
;;
    c0 and    $r0.12 = $r0.12, 4-1            ## z: one of four shades
    c1 and    $r1.12 = $r1.12, 4-1
;;

pixels:
    c0 mpyll  $r0.11 = $r0.8, $r0.5           ## u of the next pixel
    c0 add    $r0.13 = $r0.2, $r0.12          ## zp: where this pixel's shade stands
    c1 mpyll  $r1.11 = $r1.8, $r1.5           ## the same in the lower half
    c1 add    $r1.13 = $r1.2, $r1.12
;;
    c0 add    $r0.8 = $r0.8, 1                ## x: the pixel after the next
    c0 ldbu   $r0.14 = 0[$r0.13]              ## c: the shade, due three instructions on
    c1 add    $r1.8 = $r1.8, 1
    c1 ldbu   $r1.14 = 0[$r1.13]
;;
    c0 xor    $r0.12 = $r0.11, $r0.10         ## z of the next pixel: the checks
    c0 cmplt  $b0.1 = $r0.8, 32+1             ## was there a next one? due two instructions on
    c1 xor    $r1.12 = $r1.11, $r1.10
;;
    c0 shru   $r0.12 = $r0.12, 7              ## z of the next pixel: a check is 128 wide
    c0 stb    0[$r0.7] = $r0.14               ## broken: this pixel is drawn while its shade is in flight
    c0 add    $r0.7 = $r0.7, 1                ## out: the next pixel
    c1 shru   $r1.12 = $r1.12, 7              ## the same in the lower half
    c1 stb    0[$r1.7] = $r1.14
    c1 add    $r1.7 = $r1.7, 1
;;
    c0 and    $r0.12 = $r0.12, 4-1            ## z of the next pixel: one of four shades
    c0 br     $b0.1, pixels                   ## until the line is full
    c1 and    $r1.12 = $r1.12, 4-1
;;
    c0 br     $b0.2, line                     ## until both halves are full
;;
    c0 add    $r0.1 = $r0.1, 1                ## the next frame
    c0 goto   frame
;;
