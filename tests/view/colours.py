"""How well colours are told apart: contrast of texts, and the colours of vehicles as eyes of four kinds see them."""

# Text over ground, and the least contrast: 4.5 for words, 3 for signs.
TEXTS = (("ink", "card", 4.5), ("ink", "page", 4.5), ("ink", "pick", 4.5), ("soft", "card", 4.5),
         ("accent", "card", 4.5), ("on-accent", "accent", 4.5), ("fault", "fault-back", 4.5),
         ("ink", "fault-back", 4.5), ("lamp", "card", 3),
         ("named", "card", 3), ("wait", "card", 3), ("fault", "card", 4.5))

# What an eye that lacks one kind of cone makes of linear red, green and blue (Machado, Oliveira, Fernandes 2009).
EYES = {
    "all cones": ((1, 0, 0), (0, 1, 0), (0, 0, 1)),
    "no long cones": ((0.152286, 1.052583, -0.204868), (0.114503, 0.786281, 0.099216),
                      (-0.003882, -0.048116, 1.051998)),
    "no middle cones": ((0.367322, 0.860646, -0.227968), (0.280085, 0.672501, 0.047413), (-0.01182, 0.04294, 0.968881)),
    "no short cones": ((1.255528, -0.076749, -0.178779), (-0.078411, 0.930809, 0.147602), (0.004733, 0.691367, 0.3039)),
}


def linear(colour):
    """Red, green and blue of #rrggbb as amounts of light."""
    parts = [int(colour[i : i + 2], 16) / 255 for i in (1, 3, 5)]
    return [part / 12.92 if part <= 0.04045 else ((part + 0.055) / 1.055) ** 2.4 for part in parts]


def light(colour):
    red, green, blue = linear(colour)
    return 0.2126 * red + 0.7152 * green + 0.0722 * blue


def contrast(one, other):
    low, high = sorted((light(one), light(other)))
    return (high + 0.05) / (low + 0.05)


def lab(colour, eye):
    """The place of a colour in CIE Lab, as an eye sees it."""
    light_in = linear(colour)
    red, green, blue = (max(0.0, sum(weight * part for weight, part in zip(row, light_in))) for row in eye)
    parts = ((0.4124 * red + 0.3576 * green + 0.1805 * blue) / 0.9505, 0.2126 * red + 0.7152 * green + 0.0722 * blue,
             (0.0193 * red + 0.1192 * green + 0.9505 * blue) / 1.089)
    x, y, z = (part ** (1 / 3) if part > 0.008856 else 7.787 * part + 16 / 116 for part in parts)
    return 116 * y - 16, 500 * (x - y), 200 * (y - z)


def alike(hues, least=15):
    """The pairs of colours that some eye sees nearer to each other than `least`."""
    found = []
    for name, eye in EYES.items():
        places = [lab(hue, eye) for hue in hues]
        for i, one in enumerate(places):
            for j in range(i):
                far = sum((a - b) ** 2 for a, b in zip(one, places[j])) ** 0.5
                if far < least:
                    found.append([name, hues[j], hues[i], round(far, 1)])
    return found
