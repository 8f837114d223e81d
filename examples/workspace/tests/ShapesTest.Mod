MODULE ShapesTest;

IMPORT Points, Shapes;

PROCEDURE TestRectangle*;
  VAR r: Shapes.Rectangle; p: Points.Point;
BEGIN
  Points.Set(r.place, 0, 0);
  r.width := 3;
  r.height := 4;
  ASSERT(Shapes.Area(r) = 12);
  Points.Set(p, 2, 3);
  ASSERT(Shapes.Covers(r, p));
  Points.Move(p, 1, 0);
  ASSERT(~Shapes.Covers(r, p))
END TestRectangle;

PROCEDURE TestCircle*;
  VAR c: Shapes.Circle; p: Points.Point;
BEGIN
  Points.Set(c.place, 5, 5);
  c.radius := 10;
  ASSERT(Shapes.Area(c) = 314);
  Points.Set(p, 15, 5);
  ASSERT(Shapes.Covers(c, p));
  Points.Move(p, 0, 1);
  ASSERT(~Shapes.Covers(c, p))
END TestCircle;

END ShapesTest.
