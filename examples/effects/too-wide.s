## Broken: wipe.s with the step of out moved up by one, into an instruction that has four operations in each cluster, as many as the table
## allows. load refuses it with 6 and names that instruction.
##
## An iris with a soft edge that opens from a fade to a weave, and closes again: at x, y the fade is 4y, the weave 4 (x xor y), and the pixel
## goes from one to the other by inside / 256, where inside is radius^2 - (x - 32)^2 - (y - 32)^2 within 0 to 255. Cluster 0 draws the left
## half, cluster 1 the right.
##
## Registers, the same in both clusters; below they are called by these names:
##    1  frame    f; cluster 0                                14  y        the pixel's line
##    2  base     4096, where the squares stand               15  xp       where the square of its column stands
##    3  g        how far the iris is; cluster 0              16  own      the square of the line
##    4  h        127 - g; cluster 0                          17  k        limit - own
##    5  radius   of the iris; cluster 0                      18  fade     what is seen outside the iris
##    6  limit    radius^2                                    19  d        the square of the column
##    7  i        the column or line whose square is made     20  weave    what is seen inside it
##    8  at       where the square goes                       21  inside   how far inside the pixel is, 0 to 255
##    9  t        i - 32; later x xor y                       22  change   weave - fade
##   10  square   t^2                                         23  p        inside * change
##   11  out      the pixel's address                         24  q        p / 256
##   12  row      where the square of the line stands         25  w        the pixel
##   13  x        the pixel's column
## $b0.0 whether the iris opens; $b0.1 whether there are more squares, later pixels; $b0.2 whether there are more lines.

frame:
    c0 mpyll  $r0.3 = $r0.1, 12               ## g: the iris goes on by 12 in each frame, due two instructions on
    c0 add    $r0.2 = $r0.0, 256              ## base, to be finished below
    c0 add    $r0.7 = $r0.0, 0                ## i: the first square
    c0 add    $r0.11 = $r0.0, 0               ## out: the first pixel
    c1 add    $r1.2 = $r1.0, 256              ## base, of cluster 1 too
    c1 add    $r1.7 = $r1.0, 32               ## i: cluster 1 makes the other half of the squares
    c1 add    $r1.11 = $r1.0, 32              ## out: the first pixel of the right half
;;
    c0 sh4add $r0.2 = $r0.2, 0                ## base = 16 * 256: an immediate goes to 1023 only
    c0 add    $r0.14 = $r0.0, 0               ## y: the first line
    c1 sh4add $r1.2 = $r1.2, 0                ## the same in cluster 1
    c1 add    $r1.14 = $r1.0, 0
;;
    c0 and    $r0.3 = $r0.3, 128-1            ## g: 64 steps open, 64 steps close
    c0 add    $r0.8 = $r0.2, 0                ## at: the first square's place
    c0 add    $r0.12 = $r0.2, 0               ## row: the first line's square
    c1 add    $r1.8 = $r1.2, 32*2             ## at: behind the squares of cluster 0, two bytes each
    c1 add    $r1.12 = $r1.2, 0               ## row: the first line's square
;;
    c0 cmplt  $b0.0 = $r0.3, 64               ## does the iris open? due two instructions on
    c0 sub    $r0.4 = 127, $r0.3              ## h: g on its way back
;;
    c0 nop                                    ## the comparison is not due yet
;;
    c0 slct   $r0.3 = $b0.0, $r0.3, $r0.4     ## g while the iris opens, else h
;;
    c0 sh1add $r0.5 = $r0.3, $r0.3            ## radius: three times g,
;;
    c0 shru   $r0.5 = $r0.5, 2                ## by 4
;;
    c0 mpyll  $r0.6 = $r0.5, $r0.5            ## limit = radius^2
;;

## (i - 32)^2 for each column and line, half a word each: cluster 0 makes the first 32, cluster 1 the others.
squares:
    c0 add    $r0.9 = $r0.7, 0-32             ## t: counted from the middle of the frame
    c1 add    $r1.9 = $r1.7, 0-32
;;
    c0 mpyll  $r0.10 = $r0.9, $r0.9           ## square = t^2, due two instructions on
    c0 add    $r0.7 = $r0.7, 1                ## i: the next one
    c0 cmplt  $b0.1 = $r0.7, 32-1             ## is there a next one? due at the branch
    c1 mpyll  $r1.10 = $r1.9, $r1.9           ## the same for the other half
    c1 add    $r1.7 = $r1.7, 1
;;
    c0 nop                                    ## neither is due yet
;;
    c0 sth    0[$r0.8] = $r0.10               ## the square goes to the table
    c0 add    $r0.8 = $r0.8, 2                ## at: the next one's place
    c0 br     $b0.1, squares                  ## until each cluster has made 32
    c1 sth    0[$r1.8] = $r1.10               ## the same for the other half
    c1 add    $r1.8 = $r1.8, 2
;;
    c1 copy   $r1.6 = $r0.6                   ## cluster 1 is told the limit; cluster 0 idles, with a nop
;;

line:
    c0 ldh    $r0.16 = 0[$r0.12]              ## own: the line's square, due three instructions on
    c0 add    $r0.13 = $r0.0, 0               ## x: the first column
    c0 add    $r0.15 = $r0.2, 0               ## xp: its square
    c0 sh2add $r0.18 = $r0.14, 0              ## fade = 4y, for the whole line
    c1 ldh    $r1.16 = 0[$r1.12]              ## the same in the right half,
    c1 add    $r1.13 = $r1.0, 32              ## from column 32
    c1 add    $r1.15 = $r1.2, 32*2            ## and its square on
    c1 sh2add $r1.18 = $r1.14, 0
;;

## A pixel takes two turns of six instructions, and the first half of one stands beside the second half of the one before. A line starts with a
## first half alone.
    c0 ldh    $r0.19 = 0[$r0.15]              ## d: the column's square
    c0 add    $r0.12 = $r0.12, 2              ## row: the next line's square
    c1 ldh    $r1.19 = 0[$r1.15]              ## the same in the right half
    c1 add    $r1.12 = $r1.12, 2
;;
    c0 xor    $r0.9 = $r0.13, $r0.14          ## t: x crossed with y
    c0 cmplt  $b0.2 = $r0.14, 64-1            ## is there a line after this one?
    c1 xor    $r1.9 = $r1.13, $r1.14
;;
    c0 shl    $r0.20 = $r0.9, 2               ## weave = 4t
    c0 sub    $r0.17 = $r0.6, $r0.16          ## k = limit - own, for the whole line
    c1 shl    $r1.20 = $r1.9, 2               ## the same in the right half
    c1 sub    $r1.17 = $r1.6, $r1.16
;;
    c0 sub    $r0.21 = $r0.17, $r0.19         ## inside = k - d
    c0 sub    $r0.22 = $r0.20, $r0.18         ## change = weave - fade
    c1 sub    $r1.21 = $r1.17, $r1.19         ## the same in the right half
    c1 sub    $r1.22 = $r1.20, $r1.18
;;
    c0 max    $r0.21 = $r0.21, 0              ## inside: at least 0, the fade alone
    c0 add    $r0.13 = $r0.13, 1              ## x: the next column
    c0 add    $r0.15 = $r0.15, 2              ## xp: its square
    c1 max    $r1.21 = $r1.21, 0              ## the same in the right half
    c1 add    $r1.13 = $r1.13, 1
    c1 add    $r1.15 = $r1.15, 2
;;
    c0 min    $r0.21 = $r0.21, 255            ## inside: at most 255, the weave
    c1 min    $r1.21 = $r1.21, 255
;;

pixels:
    c0 ldh    $r0.19 = 0[$r0.15]              ## d: the square of the next pixel's column
    c0 mpyll  $r0.23 = $r0.21, $r0.22         ## p = inside * change of this pixel, due two instructions on
    c1 ldh    $r1.19 = 0[$r1.15]              ## the same in the right half
    c1 mpyll  $r1.23 = $r1.21, $r1.22
;;
    c0 xor    $r0.9 = $r0.13, $r0.14          ## t of the next pixel: x crossed with y
    c1 xor    $r1.9 = $r1.13, $r1.14
;;
    c0 shl    $r0.20 = $r0.9, 2               ## weave of the next pixel
    c0 shr    $r0.24 = $r0.23, 8              ## q = p / 256 of this pixel; p may be negative
    c1 shl    $r1.20 = $r1.9, 2               ## the same in the right half
    c1 shr    $r1.24 = $r1.23, 8
;;
    c0 sub    $r0.21 = $r0.17, $r0.19         ## inside of the next pixel
    c0 sub    $r0.22 = $r0.20, $r0.18         ## change of the next pixel
    c0 add    $r0.25 = $r0.24, $r0.18         ## w = fade + q of this pixel
    c0 cmplt  $b0.1 = $r0.13, 32              ## was there a next one? due at the branch
    c1 sub    $r1.21 = $r1.17, $r1.19         ## the same in the right half
    c1 sub    $r1.22 = $r1.20, $r1.18
    c1 add    $r1.25 = $r1.24, $r1.18
;;
    c0 max    $r0.21 = $r0.21, 0              ## inside of the next pixel: at least 0
    c0 add    $r0.13 = $r0.13, 1              ## x: the column after the next
    c0 add    $r0.15 = $r0.15, 2              ## xp: its square
    c0 stb    0[$r0.11] = $r0.25              ## this pixel is drawn
    c0 add    $r0.11 = $r0.11, 1              ## broken: out, a fifth operation in this cluster
    c1 max    $r1.21 = $r1.21, 0              ## the same in the right half
    c1 add    $r1.13 = $r1.13, 1
    c1 add    $r1.15 = $r1.15, 2
    c1 stb    0[$r1.11] = $r1.25
    c1 add    $r1.11 = $r1.11, 1              ## broken: and in this one
;;
    c0 min    $r0.21 = $r0.21, 255            ## inside of the next pixel: at most 255
    c0 br     $b0.1, pixels                   ## until both halves of the line are full
    c1 min    $r1.21 = $r1.21, 255
;;
    c0 add    $r0.11 = $r0.11, 32             ## out: over the right half, to the next line
    c0 add    $r0.14 = $r0.14, 1              ## y: the next line
    c0 br     $b0.2, line                     ## until the frame is full
    c1 add    $r1.11 = $r1.11, 32             ## out: over the left half of the next line
    c1 add    $r1.14 = $r1.14, 1
;;
    c0 add    $r0.1 = $r0.1, 1                ## the next frame
    c0 goto   frame
;;
