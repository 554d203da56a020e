## Rings: the left half fades to black from above while the right half comes out of white. One fade, called twice a frame. Cluster 0 draws the left
## half, cluster 1 the right; of what is faded cluster 0 has the even pixels, cluster 1 the odd ones.
##
## Registers, the same in both clusters; below they are called by these names:
##    1  frame    f; cluster 0                               13  shade    what the fade goes to
##    2  g        how far the fades are, 0 to 7; cluster 0   14  level    how far it goes in this line, of 256
##    3  h        15 - g; cluster 0                          15  slope    how much more it goes in each line
##    4  step     96 g; cluster 0                            16  line     counts the lines; cluster 0
##    5  out      the pixel's address                        17  end      behind the line's pixels; cluster 0
##    6  x        its column, counted from the middle        18  k        level within 0 to 256
##    7  y        its line, counted from the middle          19  p        the pixel as it was drawn
##    8  square   x^2                                        20  old      p, kept until it is drawn anew
##    9  s        y^2                                        21  d        shade - p
##   10  t        x^2 + y^2                                  22  m        d * k
##   11  w        the pixel                                  23  q        m / 256
##   12  at       the next pixel that is faded               24  v        the pixel, faded
## $b0.0 whether there are more pixels; $b0.1 whether there are more lines. The fade is given 12 to 15, in both clusters.

frame:
    c0 and    $r0.2 = $r0.1, 16-1             ## g: a fade takes 16 frames there and back
    c0 add    $r0.5 = $r0.0, 0                ## out: the first pixel
    c0 add    $r0.7 = $r0.0, 0-32             ## y: the first line
    c1 add    $r1.5 = $r1.0, 32               ## out: the first pixel of the right half
    c1 add    $r1.7 = $r1.0, 0-32
;;
    c0 sub    $r0.3 = 15, $r0.2               ## h: g on its way back
;;
    c0 min    $r0.2 = $r0.2, $r0.3            ## g: up to 7 and back to 0
;;
    c0 sh1add $r0.4 = $r0.2, $r0.2            ## step: three times g,
;;
    c0 shl    $r0.4 = $r0.4, 5                ## times 32
;;

## The rings.
line:
    c0 mpyll  $r0.9 = $r0.7, $r0.7            ## s = y^2, for the whole line
    c0 add    $r0.6 = $r0.0, 0-32             ## x: the first column
    c0 add    $r0.7 = $r0.7, 1                ## y: the next line
    c0 cmplt  $b0.1 = $r0.7, 31               ## is there one?
    c1 mpyll  $r1.9 = $r1.7, $r1.7            ## the same in the right half,
    c1 add    $r1.6 = $r1.0, 0                ## from the middle on
    c1 add    $r1.7 = $r1.7, 1
;;
    c0 mpyll  $r0.8 = $r0.6, $r0.6            ## square = x^2 of the first pixel, due two instructions on
    c1 mpyll  $r1.8 = $r1.6, $r1.6
;;
    c0 add    $r0.6 = $r0.6, 1                ## x: the next column
    c1 add    $r1.6 = $r1.6, 1
;;
    c0 add    $r0.10 = $r0.8, $r0.9           ## t: how far from the middle, squared
    c1 add    $r1.10 = $r1.8, $r1.9
;;
pixels:
    c0 mpyll  $r0.8 = $r0.6, $r0.6            ## square of the next pixel
    c0 shru   $r0.11 = $r0.10, 1              ## w = t / 2 of this pixel, of which the low byte is drawn: rings
    c0 cmplt  $b0.0 = $r0.6, 0                ## is there a next one in the left half?
    c1 mpyll  $r1.8 = $r1.6, $r1.6            ## the same in the right half
    c1 shru   $r1.11 = $r1.10, 1
;;
    c0 add    $r0.6 = $r0.6, 1                ## x: the column after the next
    c0 stb    0[$r0.5] = $r0.11               ## this pixel is drawn
    c1 add    $r1.6 = $r1.6, 1                ## the same in the right half
    c1 stb    0[$r1.5] = $r1.11
;;
    c0 add    $r0.10 = $r0.8, $r0.9           ## t of the next pixel
    c0 add    $r0.5 = $r0.5, 1                ## out: the next pixel
    c0 br     $b0.0, pixels                   ## until both halves of the line are full
    c1 add    $r1.10 = $r1.8, $r1.9           ## the same in the right half
    c1 add    $r1.5 = $r1.5, 1
;;
    c0 add    $r0.5 = $r0.5, 32               ## out: over the right half, to the next line
    c0 br     $b0.1, line                     ## until the frame is full
    c1 add    $r1.5 = $r1.5, 32               ## out: over the left half of the next line
;;

## The left half to black, less with each line; the right half to white, more with each line.
    c0 add    $r0.12 = $r0.0, 0               ## at: the first pixel
    c0 add    $r0.13 = $r0.0, 0               ## shade: black
    c0 add    $r0.14 = $r0.4, 0               ## level = step in the first line
    c1 add    $r1.12 = $r1.0, 1               ## at: the second pixel
    c1 add    $r1.13 = $r1.0, 0               ## shade: black
    c1 copy   $r1.14 = $r0.4                  ## level, which cluster 0 worked out
;;
    c0 add    $r0.15 = $r0.0, 0-8             ## slope: less by 8 with each line
    c0 call   $l0.0 = fade                    ## the left half fades; its return comes back to the next instruction
    c1 add    $r1.15 = $r1.0, 0-8
;;
    c0 add    $r0.12 = $r0.0, 32              ## at: the first pixel of the right half
    c0 add    $r0.13 = $r0.0, 255             ## shade: white
    c0 sub    $r0.14 = 168, $r0.4             ## level = 168 - step in the first line
    c1 add    $r1.12 = $r1.0, 32+1            ## at: the second pixel of the right half
    c1 add    $r1.13 = $r1.0, 255             ## shade: white
    c1 copy   $r1.14 = $r0.4                  ## step, for the level below
;;
    c0 add    $r0.15 = $r0.0, 8               ## slope: more by 8 with each line
    c0 call   $l0.0 = fade                    ## the right half fades, by the same subroutine
    c1 add    $r1.15 = $r1.0, 8
    c1 sub    $r1.14 = 168, $r1.14            ## level = 168 - step
;;
    c0 add    $r0.1 = $r0.1, 1                ## the next frame
    c0 goto   frame
;;

## The subroutine: 64 lines of 32 pixels, in place. Nothing is in flight at its return: the last product is made two instructions before.
fade:
    c0 add    $r0.16 = $r0.0, 0               ## line: the first one
    c1 nop
;;
fade_line:
    c0 ldbu   $r0.19 = 0[$r0.12]              ## p: the line's first pixel, due three instructions on
    c0 max    $r0.18 = $r0.14, 0              ## k: level, at least 0
    c0 add    $r0.17 = $r0.12, 32             ## end: behind its last pixel
    c0 cmplt  $b0.1 = $r0.16, 64-1            ## is there a line after this one?
    c1 ldbu   $r1.19 = 0[$r1.12]              ## the same for the odd pixel
    c1 max    $r1.18 = $r1.14, 0
;;
    c0 add    $r0.12 = $r0.12, 2              ## at: the next even pixel
    c0 min    $r0.18 = $r0.18, 256            ## k: and at most 256
    c0 add    $r0.14 = $r0.14, $r0.15         ## level of the next line
    c0 add    $r0.16 = $r0.16, 1              ## line: the next one
    c1 add    $r1.12 = $r1.12, 2              ## the same for the odd pixel
    c1 min    $r1.18 = $r1.18, 256
    c1 add    $r1.14 = $r1.14, $r1.15
;;
    c0 nop                                    ## the pixels are not due yet
    c1 nop
;;
    c0 sub    $r0.21 = $r0.13, $r0.19         ## d = shade - p
    c0 add    $r0.20 = $r0.19, 0              ## old = p
    c1 sub    $r1.21 = $r1.13, $r1.19         ## the same for the odd pixel
    c1 add    $r1.20 = $r1.19, 0
;;
    c0 mpyll  $r0.22 = $r0.21, $r0.18         ## m = d * k, due two instructions on
    c1 mpyll  $r1.22 = $r1.21, $r1.18
;;
fade_pixels:
    c0 ldbu   $r0.19 = 0[$r0.12]              ## p: the next pixel
    c0 cmplt  $b0.0 = $r0.12, $r0.17          ## is it in this line?
    c1 ldbu   $r1.19 = 0[$r1.12]
;;
    c0 add    $r0.12 = $r0.12, 2              ## at: the even pixel after the next
    c0 shr    $r0.23 = $r0.22, 8              ## q = m / 256 of this pixel; m may be negative
    c1 add    $r1.12 = $r1.12, 2              ## the same for the odd pixel
    c1 shr    $r1.23 = $r1.22, 8
;;
    c0 add    $r0.24 = $r0.23, $r0.20         ## v = old + q of this pixel
    c1 add    $r1.24 = $r1.23, $r1.20
;;
    c0 sub    $r0.21 = $r0.13, $r0.19         ## d of the next pixel
    c0 add    $r0.20 = $r0.19, 0              ## old of the next pixel
    c0 stb    0-2*2[$r0.12] = $r0.24          ## this pixel is drawn anew; at is two pixels on
    c1 sub    $r1.21 = $r1.13, $r1.19         ## the same for the odd pixel
    c1 add    $r1.20 = $r1.19, 0
    c1 stb    0-2*2[$r1.12] = $r1.24
;;
    c0 mpyll  $r0.22 = $r0.21, $r0.18         ## m of the next pixel
    c0 br     $b0.0, fade_pixels              ## until the line is done
    c1 mpyll  $r1.22 = $r1.21, $r1.18
;;
    c0 add    $r0.12 = $r0.12, 32-2           ## at: over the other half, to the next line
    c0 br     $b0.1, fade_line                ## until 64 lines are done
    c1 add    $r1.12 = $r1.12, 32-2
;;
    c0 return $l0.0                           ## to the instruction after the call
;;
