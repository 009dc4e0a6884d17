"""The 1,024 numbers of the keys, made as docs/KEYS.md says: run by itself, this prints that page's table."""
SEED = 0x243F6A8885A308D3  # the first 64 bits after the point of pi
COUNT = 1024
COUNT_RANGE = 2048  # the last eleven bits of a number are 1, so that those of a key count literals


def splitmix64(seed, count):
    """The first numbers of SplitMix64 (Steele, Lea and Flood, "Fast splittable pseudorandom number generators", 2014; constants as in Vigna's public code)."""
    mask = 2 ** 64 - 1
    numbers = []
    for _ in range(count):
        seed = (seed + 0x9E3779B97F4A7C15) & mask
        z = seed
        z = (z ^ z >> 30) * 0xBF58476D1CE4E5B9 & mask
        z = (z ^ z >> 27) * 0x94D049BB133111EB & mask
        numbers.append(z ^ z >> 31)
    return numbers


def made():
    """The numbers in rising order: those of 1, -1, 2, -2, .., 512, -512."""
    return sorted(number // COUNT_RANGE * COUNT_RANGE + 1 for number in splitmix64(SEED, COUNT))


if __name__ == "__main__":
    numbers = made()
    for i in range(1, COUNT // 2 + 1):
        print(f"| {i} | {numbers[2 * i - 2]} | {numbers[2 * i - 1]} |")
