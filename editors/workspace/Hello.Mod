MODULE Hello;
  IMPORT Out;

BEGIN
  Out.String("Hello, world");
  Out.Ln
END Hello.
