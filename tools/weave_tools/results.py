"""The results of a run, drawn of what its folder keeps."""
import os
from typing import List, Tuple

from .folder import Files
from .forms import read_raster
from .layers import Layer, Piece, Sources, drawn, unified
from .map_files import is_map_of_turns, read_map
from .pixel_files import MOST_OUT_CELLS, read_pixels
from .png import Raster
from .recipe import Recipe


def pieces_of(recipe: Recipe) -> List[Piece]:
    """The pieces that are weave's samples."""
    return [Piece(*piece) for piece in recipe.pieces]


def full_layer(recipe: Recipe, folder: str) -> Layer:
    """The samples with all their bits, as a layer."""
    rasters = [read_raster(os.path.join(folder, name)) for name in recipe.full]
    return Layer(unified(rasters, recipe.full), recipe.cell)


def layer_of(recipe: Recipe, number: int, folder: str) -> Layer:
    """A layer of the recipe, with its pictures."""
    layer = recipe.layers[number]
    rasters = [read_raster(os.path.join(folder, name)) for name in layer.files]
    return Layer(unified(rasters, layer.files), layer.each, layer.normals)


def first_pixels(recipe: Recipe, folder: str) -> List[Tuple[str, Raster]]:
    """Of each result a few pixels of its samples, which have its form: a solid picture's and a
    transparent one's differ, so one that isn't solid is taken where there is any."""
    found = []
    if recipe.full:
        found.append((recipe.result, taste(full_layer(recipe, folder).rasters[0])))
    elif not recipe.is_clip:
        found.append((recipe.result, Raster(1, 1, 3, 8, b"\0\0\0")))
    for number, layer in enumerate(recipe.layers):
        found.append((layer.result, taste(layer_of(recipe, number, folder).rasters[0])))
    return found


def taste(raster: Raster) -> Raster:
    """Eight pixels of a picture, from its first transparent one on."""
    solid = raster.solid() if raster.kind == "whole" else None
    first = 0 if solid is None else next(i for i, alpha in enumerate(solid) if alpha < 255)
    x, y = min(first % raster.width, max(raster.width - 8, 0)), first // raster.width
    return raster.part(x, y, min(8, raster.width), 1)


def drawn_results(recipe: Recipe, files: Files) -> List[Tuple[str, Raster]]:
    """Each result's name and picture: what weave wrote, or what its map draws of samples with more
    bits; and what it draws of each layer."""
    map_name, found = files.at("map"), []
    sources = None
    if recipe.full or recipe.layers:
        sources = Sources(read_map(map_name, is_map_of_turns(map_name)))
    pieces = pieces_of(recipe)
    width, height = recipe.cut or (0, 0)
    if recipe.full and sources:
        layer = full_layer(recipe, files.folder)
        found.append((recipe.result, drawn(layer, pieces, sources, (width, height))))
    else:
        out = read_pixels(files.at("out"), "out", MOST_OUT_CELLS)
        plain = Raster(out.size[0], out.size[1], 3, 8, out.cells, maxval=out.form[1])
        found.append((recipe.result, plain))
    for number, named in enumerate(recipe.layers):
        layer, times = layer_of(recipe, number, files.folder), named.each // recipe.cell
        cut = (times * width, times * height)
        if sources:
            found.append((named.result, drawn(layer, pieces, sources, cut)))
    return found
