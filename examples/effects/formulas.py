"""What each effect shows: the pixel at x, y of frame f, as one formula that knows nothing of syllables."""


def wave(u):
    return u % 64 * (63 - u % 64) // 4


def gradient(f, x, y):
    return wave(x + 4 * f) * wave(y + 2 * f) // 256


def wipe(f, x, y):
    g = 12 * f % 128
    radius = 3 * (g if g < 64 else 127 - g) // 4
    inside = min(max(radius**2 - (y - 32)**2 - (x - 32)**2, 0), 255)
    fade, weave = 4 * y, 4 * (x ^ y)
    return fade + (weave - fade) * inside // 256


def zoom(f, x, y):
    g = 8 * f % 64
    scale = 8 + (g if g < 32 else 63 - g)
    return [24, 104, 176, 248][((x - 32) * scale ^ (y - 32) * scale) // 128 % 4]


def fades(f, x, y):
    g = min(f % 16, 15 - f % 16)
    rings = ((x - 32)**2 + (y - 32)**2) // 2 % 256
    shade, level = (0, 96 * g - 8 * y) if x < 32 else (255, 168 - 96 * g + 8 * y)
    return rings + (shade - rings) * min(max(level, 0), 256) // 256
