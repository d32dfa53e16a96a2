"""From map data to the integer grid of `overlay` and back, by GDAL, NumPy and Shapely.

The way of the data: `layers` reads features into `columns`, `frame` says which point of the grid
stands for which point of the reference system, `texts` writes the program's texts and `parsing`
reads them, `program` runs it, `output` writes a layer. All of it works on whole arrays. Each verb
has a module of its own.
"""

__version__ = "2.0.0"
