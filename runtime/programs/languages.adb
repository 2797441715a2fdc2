--  Exceptions of Ada: raised, handled by name, cleaned up after, raised again, of the runtime, in tasks.
with Ada.Exceptions;
with Ada.Finalization;
with Ada.Text_IO;

procedure Languages is
   use Ada.Text_IO;

   Named, Other : exception;
   Alive        : Integer := 0;

   type Counted is new Ada.Finalization.Limited_Controlled with null record;
   overriding procedure Initialize (Object : in out Counted);
   overriding procedure Finalize (Object : in out Counted);

   overriding procedure Initialize (Object : in out Counted) is
   begin
      Alive := Alive + 1;
   end Initialize;

   overriding procedure Finalize (Object : in out Counted) is
   begin
      Alive := Alive - 1;
   end Finalize;

   procedure Raise_Below (Frames : Integer) is
      Object : Counted;
   begin
      if Frames = 0 then
         raise Named with "at the end";
      end if;
      Raise_Below (Frames - 1);
   end Raise_Below;
   pragma No_Inline (Raise_Below);

   procedure Raise_Deep (Frames : Integer) is
   begin
      if Frames = 0 then
         raise Other;
      end if;
      Raise_Deep (Frames - 1);
      Put_Line ("wrong");
   end Raise_Deep;
   pragma No_Inline (Raise_Deep);

   procedure Caught (Frames : Integer) is
   begin
      Raise_Below (Frames);
   exception
      when Other =>
         Put_Line ("wrong");
      when E : Named =>
         Put_Line ("caught " & Ada.Exceptions.Exception_Message (E) & Integer'Image (Alive));
   end Caught;

   procedure Again is
   begin
      begin
         Raise_Below (4);
      exception
         when Named =>
            Put_Line ("once");
            raise;
      end;
   exception
      when E : others =>
         Put_Line ("again " & Ada.Exceptions.Exception_Name (E) & Integer'Image (Alive));
   end Again;

   function Quotient (One, Two : Integer) return Integer is (One / Two);
   pragma No_Inline (Quotient);

   procedure By_Runtime is
      type Numbers is array (1 .. 3) of Integer;
      List : Numbers := (1, 2, 3);
   begin
      begin
         Put_Line (Integer'Image (Quotient (1, List (1) - 1)));
      exception
         when Constraint_Error =>
            Put_Line ("a quotient");
      end;
      begin
         List (List (3) + 1) := 0;
         Put_Line (Integer'Image (List (1)));
      exception
         when Constraint_Error =>
            Put_Line ("an index");
      end;
   end By_Runtime;

   --  The stack of each ends by an exception, and by an abort.
   procedure In_Tasks is
      task type Worker is
         entry Count (Number : out Integer);
      end Worker;
      task body Worker is
         Sum : Integer := 0;
      begin
         for I in 1 .. 200 loop
            begin
               Raise_Deep (I mod 30);
            exception
               when Other =>
                  Sum := Sum + 1;
            end;
         end loop;
         accept Count (Number : out Integer) do
            Number := Sum;
         end Count;
      end Worker;
      task Sleeper;
      task body Sleeper is
         Object : Counted;
      begin
         delay 1_000.0;
      end Sleeper;
      Workers : array (1 .. 4) of Worker;
      Number  : Integer;
   begin
      for Each of Workers loop
         Each.Count (Number);
         Put_Line ("a task" & Integer'Image (Number));
      end loop;
      abort Sleeper;
   end In_Tasks;

begin
   Caught (0);
   Caught (1);
   Caught (10);
   Caught (100);
   Again;
   By_Runtime;
   In_Tasks;
   Put_Line ("alive" & Integer'Image (Alive));
   Raise_Below (2);
end Languages;
