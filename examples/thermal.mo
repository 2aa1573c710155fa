package Thermal
  connector Port
    Real T;
    flow Real Q;
  end Port;

  model Store
    Port port;
    parameter Real C = 1.0;
  equation
    C*der(port.T) = port.Q;
  end Store;

  model Layer
    Port a, b;
    parameter Real G = 1.0;
  equation
    a.Q = G*(a.T - b.T);
    0 = a.Q + b.Q;
  end Layer;

  model Outside
    Port port;
    parameter Real T = 273.15;
  equation
    port.T = T;
  end Outside;
end Thermal;
