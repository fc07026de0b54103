"""Other extractors: each makes the surface of a block once, and gives its seconds, its corners' places and its triangles.

Extraction alone is timed, by processor time: no normals, gradients or scalars where they can be turned off, one thread, and no reading of
results.
"""
import ctypes
import functools
import time

import numpy as np


def by_vtk(kind, values, level):
    import vtk
    from vtk.util.numpy_support import numpy_to_vtk, vtk_to_numpy
    vtk.vtkSMPTools.Initialize(1)
    image = vtk.vtkImageData()
    image.SetDimensions(*reversed(values.shape))
    image.GetPointData().SetScalars(numpy_to_vtk(values.ravel(), deep=True, array_type=vtk.VTK_UNSIGNED_CHAR))
    extractor = getattr(vtk, kind)()
    extractor.SetInputData(image)
    extractor.SetValue(0, level)
    extractor.ComputeNormalsOff()
    extractor.ComputeGradientsOff()
    extractor.ComputeScalarsOff()
    start = time.process_time()
    extractor.Update()
    seconds = time.process_time() - start
    surface = extractor.GetOutput()
    if surface.GetNumberOfPolys() == 0:
        return (seconds, *nothing())
    triangles = vtk_to_numpy(surface.GetPolys().GetConnectivityArray()).reshape(-1, 3)
    return seconds, vtk_to_numpy(surface.GetPoints().GetData()).copy(), triangles.astype(np.int64)


def by_skimage(method, values, level):
    from skimage.measure import marching_cubes
    start = time.process_time()
    try:
        corners, triangles, _, _ = marching_cubes(values, level, method=method)
    except (ValueError, RuntimeError):  # how it says that there is no surface
        corners, triangles = nothing()
    return time.process_time() - start, corners, triangles.astype(np.int64)


def nothing():
    return np.zeros((0, 3)), np.zeros((0, 3), np.int64)


def keep_memory():
    """Keeps what an extractor frees for its next run, so that it too writes to warm memory: glibc's M_MMAP_MAX 0, M_TRIM_THRESHOLD none."""
    mallopt = getattr(ctypes.CDLL(None), 'mallopt', None)
    if mallopt:
        mallopt(-4, 0)
        mallopt(-1, -1)


def found():
    """The extractors that are installed, by name, and the names of the packages that are not."""
    peers, missing = {}, []
    try:
        import vtk  # noqa: F401
        for kind in ('vtkFlyingEdges3D', 'vtkMarchingCubes', 'vtkSynchronizedTemplates3D'):
            peers[kind] = functools.partial(by_vtk, kind)
    except ImportError:
        missing.append('vtk')
    try:
        import skimage  # noqa: F401
        for method in ('lewiner', 'lorensen'):
            peers['skimage ' + method] = functools.partial(by_skimage, method)
    except ImportError:
        missing.append('skimage')
    return peers, missing
