"""GeoPandas: what stays, and what is said of degrees."""

import unittest

import surroundings  # noqa: F401, makes the package found
from surroundings import shapely

from i_overlay_mesh import DrawingError, buffer, buffer_all, outline

try:
    import geopandas
    import pandas
except ImportError:
    geopandas = None


@unittest.skipIf(geopandas is None, "GeoPandas is not there")
class TestFrames(unittest.TestCase):
    def setUp(self):
        kinds = shapely.geometry
        self.given = [kinds.Point(4e6, 3e6), None, kinds.Polygon([(0, 0), (9, 0), (9, 9)]), kinds.LineString()]
        self.column = geopandas.GeoSeries(self.given, index=["a", "b", "c", "d"], crs=3035, name="area")

    def test_a_column(self):
        answers = buffer_all(self.column, 2)
        self.assertIsInstance(answers, geopandas.GeoSeries)
        self.assertEqual((list(answers.index), answers.crs, answers.name), (list("abcd"), self.column.crs, "area"))
        for item, answer in zip(self.given, answers):
            if item is None or item.is_empty:
                self.assertTrue(answer is None or answer.is_empty)
            else:
                self.assertTrue(answer.equals_exact(buffer(item, 2).shapely(), 0))

    def test_a_table(self):
        table = geopandas.GeoDataFrame({"name": list("wxyz")}, index=list("abcd"), geometry=self.column)
        answers = buffer_all(table, [1, 2, 3, 4])
        self.assertIsInstance(answers, geopandas.GeoDataFrame)
        self.assertEqual(list(answers["name"]), list("wxyz"))
        self.assertEqual(
            (list(answers.index), answers.crs, answers.geometry.name), (list("abcd"), table.crs, table.geometry.name)
        )
        self.assertTrue(answers.geometry.iloc[2].equals_exact(buffer(self.given[2], 3).shapely(), 0))
        self.assertIs(table.geometry.iloc[2], self.given[2])

    def test_distances_of_a_column(self):
        distances = pandas.Series([1, 2, 3, 4], index=list("abcd"))
        self.assertTrue(buffer_all(self.column, distances).iloc[2].equals_exact(buffer(self.given[2], 3).shapely(), 0))
        with self.assertRaisesRegex(DrawingError, "another index than the geometries"):
            buffer_all(self.column, distances.iloc[::-1])

    def test_all_together(self):
        both = geopandas.GeoSeries([self.given[2], self.given[2].buffer(1)], crs=3035)
        self.assertEqual(len(outline(both, 1)), 1)

    def test_degrees(self):
        degrees = geopandas.GeoSeries([shapely.geometry.Point(15, 50), None], crs=4326)
        with self.assertRaisesRegex(DrawingError, "the CRS is EPSG:4326, whose unit is the degree.*project='utm'"):
            buffer_all(degrees, 1)
        for crs in ("utm", "EPSG:3035"):
            answers = buffer_all(degrees, 1000, project=crs)
            self.assertEqual(answers.crs, degrees.crs)
            area = answers.to_crs(degrees.estimate_utm_crs() if crs == "utm" else crs).area
            self.assertAlmostEqual(area.iloc[0] / (3.1365 * 1000**2), 1, 3)
        for crs, given in ("EPSG:1", degrees), ("utm", degrees.iloc[1:]):
            with self.assertRaisesRegex(DrawingError, f"project is '{crs}': "):
                buffer_all(given, 1, project=crs)
        with self.assertRaisesRegex(DrawingError, "no CRS to project them from"):
            buffer_all(geopandas.GeoSeries([shapely.geometry.Point(15, 50)]), 1, project="utm")


if __name__ == "__main__":
    unittest.main()
