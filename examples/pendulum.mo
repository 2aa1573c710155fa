model Pendulum
  parameter Real g = 9.81;
  parameter Real L = 1.0;
  Real x; Real y; Real vx; Real vy; Real lam;
equation
  der(x) = vx;
  der(y) = vy;
  der(vx) = -lam*x;
  der(vy) = -lam*y - g;
  x^2 + y^2 = L^2;
end Pendulum;
