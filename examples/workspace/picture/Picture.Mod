MODULE Picture;
(* Prints two houses under the sun. *)

IMPORT Canvas, Houses, Points, Shapes;

VAR
  sun: Shapes.Circle;
  small, large: Houses.House;

PROCEDURE DrawHouse(VAR h: Houses.House);
BEGIN
  Canvas.Draw(h.roof, "^");
  Canvas.Draw(h.wall, "#");
  Canvas.Draw(h.door, Canvas.Blank)
END DrawHouse;

BEGIN
  Points.Set(sun.place, Canvas.Width DIV 2, 3);
  sun.radius := 2;
  Houses.Build(small, 8, 5, 5);
  Houses.Build(large, 38, 2, 8);
  Canvas.Clear;
  Canvas.Draw(sun, "o");
  DrawHouse(small);
  DrawHouse(large);
  Canvas.Show
END Picture.
