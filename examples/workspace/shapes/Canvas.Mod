MODULE Canvas;
(* A canvas of characters. What is drawn hides what was there before. *)

IMPORT Out, Points, Shapes;

CONST
  Width* = 48;
  Height* = 14;
  Blank* = " ";

VAR
  dots: ARRAY Height, Width OF CHAR;

PROCEDURE Clear*;
  VAR x, y: INTEGER;
BEGIN
  FOR y := 0 TO Height - 1 DO
    FOR x := 0 TO Width - 1 DO dots[y, x] := Blank END
  END
END Clear;

PROCEDURE Draw*(VAR s: Shapes.Shape; ink: CHAR);
  VAR p: Points.Point; x, y: INTEGER;
BEGIN
  FOR y := 0 TO Height - 1 DO
    FOR x := 0 TO Width - 1 DO
      Points.Set(p, x, y);
      IF Shapes.Covers(s, p) THEN dots[y, x] := ink END
    END
  END
END Draw;

PROCEDURE Show*;
  VAR x, y: INTEGER;
BEGIN
  FOR y := 0 TO Height - 1 DO
    FOR x := 0 TO Width - 1 DO Out.Char(dots[y, x]) END;
    Out.Ln
  END
END Show;

END Canvas.
