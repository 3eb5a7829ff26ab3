package Counter is
   Count : Integer := 0;
   procedure Inc with Global => (Input => Count);
end Counter;
package body Counter is
   procedure Inc is
   begin
      Count := Count + 1;
   end Inc;
end Counter;
