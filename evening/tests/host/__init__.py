"""A stand-in of the arena host, for the tests of the pages and scripts alone. It is written for plainness and not for speed."""
