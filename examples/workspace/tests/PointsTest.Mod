MODULE PointsTest;

IMPORT Points;

PROCEDURE TestMove*;
  VAR p: Points.Point;
BEGIN
  Points.Set(p, 1, 2);
  Points.Move(p, 3, -5);
  ASSERT(p.x = 4);
  ASSERT(p.y = -3)
END TestMove;

PROCEDURE TestDistance*;
  VAR p, q: Points.Point;
BEGIN
  Points.Set(p, 1, 2);
  Points.Set(q, 4, -2);
  ASSERT(Points.Distance(p, q) = 7);
  ASSERT(Points.Distance(q, p) = 7)
END TestDistance;

END PointsTest.
