from array import array
from bits import Bits

bits = Bits(array("Q", [0, 0]), "lsb0")
bits[60:71].store(1234)
print(bits[60:71].load(), "has", bits.count_ones(), "ones")
try:
    bits[128]
except IndexError as error:
    print(error)
