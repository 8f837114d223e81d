MODULE Points;
(* Points of the plane: x counts to the right, y downwards. *)

TYPE
  Point* = RECORD x*, y*: INTEGER END;

PROCEDURE Set*(VAR p: Point; x, y: INTEGER);
BEGIN
  p.x := x;
  p.y := y
END Set;

PROCEDURE Move*(VAR p: Point; dx, dy: INTEGER);
BEGIN
  INC(p.x, dx);
  INC(p.y, dy)
END Move;

(* How many steps there are from p to q, where each is to a neighbour above, below, to the left or to the right. *)
PROCEDURE Distance*(p, q: Point): INTEGER;
  RETURN ABS(p.x - q.x) + ABS(p.y - q.y)
END Distance;

END Points.
