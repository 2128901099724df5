(* Writes what is accepted of a table as theorems of Coq, with both files in them. Nothing of it is trusted: Coq proves
   what it writes, or refuses it. *)
open Checker
module Z = Big

let sprintf = Printf.sprintf
let listed one l = "[" ^ String.concat "; " (List.map one l) ^ "]"
let number z = if Z.sign z < 0 then sprintf "(%s)" (Z.to_string z) else Z.to_string z
let numbers = listed number
let fraction { qnum; qden } = sprintf "(%s # %s)" (number qnum) (Z.to_string qden)
let part = function Some q -> "Some " ^ fraction q | None -> "None"

(* A list in lines of at most so many characters. *)
let folded indent words =
  let line = Buffer.create 128 and all = Buffer.create 1024 in
  let out () = Buffer.add_buffer all line; Buffer.clear line in
  List.iteri (fun i word ->
      let word = if i = 0 then word else "; " ^ word in
      if Buffer.length line + String.length word > 110 then (out (); Buffer.add_string all ("\n" ^ indent));
      Buffer.add_string line word)
    words;
  out ();
  "[" ^ Buffer.contents all ^ "]"

(* Bytes as lines and pieces of text; those that are no plain text stand as numbers. *)
let literal text =
  let plain c = c >= ' ' && c <= '~' in
  let quoted s = "\"" ^ String.concat "\"\"" (String.split_on_char '"' s) ^ "\"" in
  let size = String.length text in
  let parts = ref [] and begun = ref [] in
  let flush_lines () =
    if !begun <> [] then parts := sprintf "flat_map (fun line => text line ++ [10]) [\n  %s]" (String.concat ";\n  " (List.rev !begun)) :: !parts;
    begun := [] in
  let rec go i =
    if i < size then begin
      let rec run j = if j < size && j - i < 1000 && plain text.[j] then run (j + 1) else j in
      let j = run i in
      if j < size && text.[j] = '\n' then (begun := quoted (String.sub text i (j - i)) :: !begun; go (j + 1))
      else begin
        flush_lines ();
        if j > i then (parts := ("text " ^ quoted (String.sub text i (j - i))) :: !parts; go j)
        else begin
          let rec odd k = if k < size && not (plain text.[k]) && k - i < 40 && (k = i || text.[k] <> '\n') then odd (k + 1) else k in
          let k = odd i in
          let bytes = List.init (k - i) (fun d -> string_of_int (Char.code text.[i + d])) in
          parts := ("[" ^ String.concat "; " bytes ^ "]") :: !parts;
          go k
        end
      end
    end
  in
  go 0;
  flush_lines ();
  match List.rev !parts with [] -> "[]" | parts -> String.concat " ++\n  " parts

(* A claim in Coq's words, and what it states: names, statements, and how each follows from the claim. *)
let claim_text = function
  | GarpHolds -> "GarpHolds" | GarpViolated -> "GarpViolated"
  | AfriatNumbers (u, l) -> sprintf "AfriatNumbers %s %s" (numbers u) (numbers l)
  | NoAfriatNumbers -> "NoAfriatNumbers"
  | EfficiencyIs (e, attained) -> sprintf "EfficiencyIs %s %b" (fraction e) attained
  | HomotheticHolds -> "HomotheticHolds" | HomotheticViolated -> "HomotheticViolated"
  | QuasilinearHolds -> "QuasilinearHolds" | QuasilinearViolated -> "QuasilinearViolated"
  | DemandBounds (p, m, bounds) ->
      sprintf "DemandBounds %s %s %s" (numbers p) (number m)
        (listed (fun (a, b) -> sprintf "(%s, %s)" (part a) (part b)) bounds)
  | DemandViolated -> "DemandViolated"
  | WelfareBounds (p, t, lower, upper, s) ->
      let lower = match lower with Some q -> sprintf "(Some %s)" (fraction q) | None -> "None" in
      sprintf "WelfareBounds %s %d %s %s %d" (numbers p) t lower (number upper) s
  | WelfareViolated -> "WelfareViolated"
  | Nothing -> "Nothing"

let goods = "(goods observed)"

(* What a claim states of the table itself. *)
let stated = function
  | GarpHolds -> [ ("garp_holds", "garp observed (by_own observed)", "it") ]
  | GarpViolated -> [ ("garp_violated", "~ garp observed (by_own observed)", "it") ]
  | AfriatNumbers (u, l) ->
      let u = folded "      " (List.map number u) and l = folded "      " (List.map number l) in
      [ ("afriat_numbers", sprintf "afriat_model observed (by_own observed)\n    (fun s => nth s %s 0)\n    (fun s => nth s %s 0)" u l,
         "it") ]
  | NoAfriatNumbers -> [ ("no_afriat_numbers", "forall U L, ~ afriat_model observed (by_own observed) U L", "it") ]
  | EfficiencyIs (e, attained) ->
      let e = fraction e in
      [ ("efficiency_is", sprintf "efficiency_index observed %s" e, "proj1 it");
        ((if attained then "efficiency_attained" else "efficiency_not_attained"),
         sprintf "%sgarp observed (at_level observed %s)" (if attained then "" else "~ ") e, "proj2 it") ]
  | HomotheticHolds -> [ ("homothetic_test_holds", "homothetic_test observed", "it") ]
  | HomotheticViolated -> [ ("homothetic_test_violated", "~ homothetic_test observed", "it") ]
  | QuasilinearHolds -> [ ("quasilinear_test_holds", "quasilinear_test observed", "it") ]
  | QuasilinearViolated -> [ ("quasilinear_test_violated", "~ quasilinear_test observed", "it") ]
  | WelfareBounds (p, _, _, upper, s) ->
      [ ("welfare_upper_bound", sprintf "dot %s (bought observed %d) = %s" (numbers p) s (number upper), "it") ]
  | DemandBounds _ | DemandViolated | WelfareViolated | Nothing -> []

(* What a claim states of people over every ordered field, and how it follows. *)
let stated_over claim =
  let held = "(held_over K (by_own observed))" and spent = "(spent_over K observed)" in
  let some = sprintf "rationalizable_over K observed %s" and none = sprintf "irrational_over K observed %s" in
  let consumer body =
    sprintf "forall prefers, consumer_over K %s prefers ->\n    rationalizes_over K observed %s prefers ->%s" goods spent body in
  match claim with
  | GarpHolds -> [ ("some_consumer_over", some held, "it") ]
  | GarpViolated -> [ ("no_consumer_over", none held, "it") ]
  | AfriatNumbers (u, l) ->
      let u = folded "      " (List.map number u) and l = folded "      " (List.map number l) in
      [ ("utility_over",
         sprintf "exists u, least_allowed_over K observed (by_own observed)\n    %s\n    %s u /\\\n    increasing_over K %s u /\\ concave_over K %s u /\\ rationalizes_over K observed %s (by_utility_over K u)"
           u l goods goods held, "it") ]
  | NoAfriatNumbers -> [ ("afriat_no_consumer_over", none held, "it") ]
  | EfficiencyIs (e, attained) ->
      let e = fraction e in
      let at level = sprintf "(fun s => times K %s (spent_over K observed s))" level in
      let within = "forall e, ~ at_most K e (zero K) -> at_most K e (one K) ->\n    " in
      [ ("efficiency_below_over", sprintf "%s~ at_most K (fraction_over K %s) e -> rationalizable_over K observed %s" within e (at "e"),
         "fun e' low high => proj1 (it e' low high)");
        ("efficiency_above_over", sprintf "%s~ at_most K e (fraction_over K %s) -> irrational_over K observed %s" within e (at "e"),
         "fun e' low high => proj1 (proj2 (it e' low high))");
        ("efficiency_at_over", sprintf "%se = fraction_over K %s -> %s K observed %s" within e
           (if attained then "rationalizable_over" else "irrational_over") (at "e"),
         "fun e' low high => proj2 (proj2 (it e' low high))") ]
  | HomotheticHolds ->
      [ ("homogeneous_utility_over",
         sprintf "exists u, increasing_over K %s u /\\ concave_over K %s u /\\ homogeneous_over K %s u /\\\n    rationalizes_over K observed %s (by_utility_over K u)"
           goods goods goods spent, "it") ]
  | HomotheticViolated ->
      [ ("no_homothetic_consumer_over",
         sprintf "forall prefers, consumer_over K %s prefers -> homothetic_over K %s prefers ->\n    ~ rationalizes_over K observed %s prefers"
           goods goods spent, "it") ]
  | QuasilinearHolds ->
      [ ("worth_in_money_over",
         sprintf "exists v, increasing_over K %s v /\\ concave_over K %s v /\\ worth_over K observed v" goods goods, "it") ]
  | QuasilinearViolated -> [ ("no_worth_in_money_over", "forall v, ~ worth_over K observed v", "it") ]
  | DemandBounds (p, m, bounds) ->
      let at = sprintf "%s %s" (numbers p) (number m) in
      let about good bound which value step =
        let stated who n side =
          (sprintf "demand_good_%d_%s_%s_over" (good + 1) bound n,
           sprintf "best_bound_over K %s (bought_by_over K (%s K) observed %s) %d (fraction_over K %s)" which who at good (fraction value),
           sprintf "%s (proj2 (proj2 it) %d%%nat _ _ _ eq_refl (%s eq_refl))" step good side) in
        [ stated "consumer_over" "of_consumers" "or_introl"; stated "has_utility_over" "of_utilities" "or_intror" ] in
      ("demand_some_consumer_over", sprintf "exists x, bought_by_over K (has_utility_over K) observed %s x" at, "proj1 (proj2 it)")
      :: List.concat (List.mapi (fun good (lower, upper) ->
             (match lower with Some v -> about good "lower" "(at_most K)" v "proj1" | None -> [])
             @ (match upper with Some v -> about good "upper" "(fun a b => at_most K b a)" v "proj2" | None -> []))
           bounds)
  | WelfareBounds (p, t, lower, _, s) ->
      ("welfare_upper_bound_over", consumer (sprintf " prefers (bought_over K observed %d) (bought_over K observed %d)" s t),
       "fun prefers c r => proj2 (proj2 it prefers c r)")
      :: (match lower with
          | None -> []
          | Some v ->
              [ ("welfare_lower_bound_over",
                 consumer (sprintf "\n    forall x, bundle_over K %s x -> prefers x (bought_over K observed %d) ->\n    at_most K (fraction_over K %s) (costs_over K %s x)"
                   goods t (fraction v) (numbers p)),
                 "fun prefers c r => proj1 (proj2 it prefers c r)") ])
  | DemandViolated -> [ ("demand_no_consumer_over", none spent, "it") ]
  | WelfareViolated -> [ ("welfare_no_consumer_over", none spent, "it") ]
  | Nothing -> []

(* What stands at the head of a file of theorems, and its comments. *)
let say_to out form = Printf.kbprintf (fun out -> Buffer.add_char out '\n') out form
let comment name = String.map (fun c -> if c = '*' || c = '"' || c = '(' || c < ' ' then '.' else c) name
let head out what modules =
  let say form = say_to out form in
  say "(* The verdicts on %s, as theorems." what;
  say "   Written by rp-second --theorem; Coq proves it:  coqc -Q second/theories Second THIS_FILE";
  say "   The definitions are in second/theories/Spec*.v; second/DEFINITIONS.md reads them. *)";
  say "From Coq Require Import ZArith QArith List String.";
  say "From Second Require Import %s." modules;
  say "Import ListNotations.";
  say "Open Scope Z_scope.";
  say "Open Scope string_scope.";
  say "Open Scope list_scope.";
  say ""

(* Names that stand once each. *)
let fresh_names () =
  let used = Hashtbl.create 16 in
  fun name ->
    let n = try Hashtbl.find used name + 1 with Not_found -> 1 in
    Hashtbl.replace used name n;
    if n = 1 then name else sprintf "%s_%d" name n

(* What the theorems rest on: those over every field on no axiom, and those over the reals on the library's. *)
let foot out names over =
  let say form = say_to out form in
  say "(* None of them rests on an axiom. *)";
  say "Definition every_theorem := (%s)." (String.concat ",\n  " (List.rev names));
  say "Print Assumptions every_theorem.\n";
  if over <> [] then begin
    say "(* The same of people with real quantities; under it are the axioms of Coq's library of real numbers. *)";
    say "Definition with_real_quantities := (%s)." (String.concat ", " (List.rev over));
    say "Print Assumptions with_real_quantities."
  end

(* The table that the bytes denote. *)
let say_table out tb =
  let say form = say_to out form in
  say "(* Prices, quantities and levels of the observations, in scaled units. *)";
  let rows name l = say "Definition %s : list (list Z) := [\n  %s]." name (String.concat ";\n  " (List.map numbers l)) in
  rows "observed_prices" tb.prices;
  rows "observed_quantities" tb.quantities;
  say "Definition observed : table := Table observed_prices observed_quantities %s.\n" (numbers tb.levels)

let whole_numbers l = if l = [] then "(@nil nat)" else listed string_of_int l ^ "%nat"

(* ---- goodness of fit ---- *)

let steps_text l = sprintf "[%s]%%nat" (String.concat "; " (List.map (fun (s, t) -> sprintf "(%d, %d)" s t) l))
let some_steps l = if l = [] then "(@nil (nat * nat))" else steps_text l
let loss squared = if squared then "(fun e => (1 - e) * (1 - e))%Q" else "(fun e => 1 - e)%Q"

let fit_claim_text = function
  | CountsAre (g, o, k, w, s) -> sprintf "CountsAre %d %d %d %d %d" g o k w s
  | FitEfficiency it -> sprintf "FitEfficiency (%s)" (claim_text it)
  | KeptAre (ones, most) -> sprintf "KeptAre %s %d" (whole_numbers ones) most
  | MeanBetween (squared, low, high) -> sprintf "MeanBetween %b %s %s" squared (fraction low) (fraction high)
  | StepsBetween (given_up, low, high) ->
      sprintf "StepsBetween %s %s %s" (some_steps given_up) (fraction low) (fraction high)
  | PumpIs v -> sprintf "PumpIs %s" (fraction v)
  | QuasilinearLevelIs v -> sprintf "QuasilinearLevelIs %s" (fraction v)
  | HomotheticBetween (low, high) -> sprintf "HomotheticBetween %s %s" (number low) (number high)

(* What a claim states, and how it follows from [it]. *)
let stated_fit = function
  | CountsAre (g, o, k, w, s) ->
      let count (name, how, of_, many, from) = (name, sprintf "%s observed (%s observed) %d" how of_ many, from) in
      List.map count
        [ ("garp_pairs_are", "pairs_in", "garp_pair", g, "proj1 it");
          ("garp_observations_are", "observations_in", "garp_pair", o, "proj1 (proj2 it)");
          ("wgarp_pairs_are", "pairs_in", "wgarp_pair", k, "proj1 (proj2 (proj2 it))");
          ("warp_pairs_are", "pairs_in", "warp_pair", w, "proj1 (proj2 (proj2 (proj2 it)))");
          ("sarp_pairs_are", "pairs_in", "sarp_pair", s, "proj2 (proj2 (proj2 (proj2 it)))") ]
  | FitEfficiency it -> stated it
  | KeptAre (ones, most) ->
      [ ("kept_can_be_kept", sprintf "can_be_kept observed %s" (whole_numbers ones), "proj1 it");
        ("no_more_can_be_kept", sprintf "kept_at_most observed %d" most, "proj2 it") ]
      @ if List.length ones = most then
          [ ("kept_is", sprintf "kept_index observed %d" most, "kept_index_of _ _ _ (proj1 it) (proj2 it) eq_refl") ]
        else []
  | MeanBetween (squared, low, high) ->
      [ ((if squared then "squares_between" else "levels_between"),
         sprintf "mean_at_least observed %s %s /\\\n  mean_at_most observed %s %s" (loss squared) (fraction low)
           (loss squared) (fraction high), "it") ]
  | StepsBetween (given_up, low, high) ->
      [ ("steps_given_up", sprintf "enough_given_up observed %s" (some_steps given_up), "proj1 it");
        ("steps_between", sprintf "steps_at_least observed %s /\\ steps_at_most observed %s" (fraction low) (fraction high),
         "proj2 it") ]
  | PumpIs v -> [ ("money_pump_is", sprintf "pump_index observed %s" (fraction v), "it") ]
  | QuasilinearLevelIs v -> [ ("quasilinear_level_is", sprintf "quasilinear_level observed %s" (fraction v), "it") ]
  | HomotheticBetween (low, high) ->
      [ ("homothetic_level_between",
         sprintf "homothetic_at_least observed %s (2 ^ 40) /\\\n  homothetic_at_most observed %s (2 ^ 40)" (number low)
           (number high), "it") ]

(* The same of people over every ordered field. *)
let some_utility_at among levels =
  sprintf "exists u, increasing_over K %s u /\\ concave_over K %s u /\\\n    rationalizes_at K observed %s %s (by_utility_over K u)"
    goods goods among levels
let stated_fit_over = function
  | FitEfficiency it -> stated_over it
  | KeptAre (ones, most) ->
      [ ("kept_utility_over", some_utility_at (whole_numbers ones) "(fun _ => 1%Q)", "proj1 it");
        ("no_consumer_kept_more_over",
         "forall among prefers, NoDup among ->\n    Forall (fun s => (s < size observed)%nat) among -> consumer_over K (goods observed) prefers ->\n"
         ^ sprintf "    rationalizes_at K observed among (fun _ => 1%%Q) prefers -> (List.length among <= %d)%%nat" most,
         "proj2 it") ]
  | MeanBetween (squared, low, high) ->
      let name text = if squared then "squares_" ^ text else "levels_" ^ text in
      [ (name "of_some_consumer_over",
         sprintf "forall w,\n    (%s * inject_Z (Z.of_nat (size observed)) < w)%%Q -> exists e, level_vector observed e /\\\n" (fraction high)
         ^ sprintf "    (%s) /\\\n    (lost_by %s e (seq 0 (size observed)) < w)%%Q" (some_utility_at "(seq 0 (size observed))" "e") (loss squared),
         "proj1 it");
        (name "of_consumers_over",
         "forall e prefers, level_vector observed e ->\n    consumer_over K (goods observed) prefers ->\n"
         ^ "    rationalizes_at K observed (seq 0 (size observed)) e prefers ->\n"
         ^ sprintf "    (%s * inject_Z (Z.of_nat (size observed)) <= lost_by %s e (seq 0 (size observed)))%%Q" (fraction low) (loss squared),
         "proj2 it") ]
  | _ -> []

(* What is claimed of a table by a certificate, and what has to be said of it: what the claims are, how they stand in
   the file, and what each states, alone and of people over every ordered field. *)
type claims = On_tests of claim list | On_fit of fit_claim list
let all_stated = function
  | On_tests l -> ("claim", List.map claim_text l, List.map stated l, List.map stated_over l)
  | On_fit l -> ("fit_claim", List.map fit_claim_text l, List.map stated_fit l, List.map stated_fit_over l)

let write ?of_unit ~table_name ~table_text ~certificate_name ~certificate_text tb claims =
  let out = Buffer.create 65536 in
  let say form = say_to out form in
  (* Of a table alone; or of a unit of a long file, by the name of the column of ids and by its id. *)
  let what, denotes =
    match of_unit with
    | None -> (sprintf "the table %s" (comment table_name), "denotes table_file")
    | Some (id_name, id) ->
        (sprintf "the unit %s of %s" (comment id) (comment table_name), "unit_denotes id_name id table_file") in
  let modules, judge, sound, claim, over =
    match of_unit, claims with
    | None, On_tests _ ->
        ("Judge SpecOver OverClaims Reals", "judge table_file", "judged_table", "judge_claim", "judge_claim_over")
    | None, On_fit _ -> ("JudgeFit Reals", "judge_fit table_file", "fit_denoted", "judged_fit", "judged_fit_over")
    | Some _, On_tests _ ->
        ("JudgePanel Reals", "judge_unit id_name id table_file", "unit_denoted", "unit_claim", "unit_claim_over")
    | Some _, On_fit _ ->
        ("JudgePanel Reals", "judge_unit_fit id_name id table_file", "unit_fit_denoted", "unit_fit_claim",
         "unit_fit_claim_over") in
  let kind, texts, alone, of_people = all_stated claims in
  let what = match claims with On_tests _ -> what | On_fit _ -> "the goodness of fit of " ^ what in
  head out (sprintf "%s, from the certificate %s" what (comment certificate_name)) modules;
  say "(* The bytes of both files. *)";
  say "Definition table_file : bytes := %s.\n" (literal table_text);
  say "Definition certificate_file : bytes := %s.\n" (literal certificate_text);
  (match of_unit with
   | None -> ()
   | Some (id_name, id) ->
       say "(* The name of the column of ids, and the unit's id. *)";
       say "Definition id_name : bytes := %s." (literal id_name);
       say "Definition id : bytes := %s.\n" (literal id));
  say_table out tb;
  say "(* Observations count from 0. *)";
  say "Definition claims : list %s := [%s].\n" kind (String.concat ";\n  " texts);
  say "Lemma judged : %s certificate_file = Some (observed, claims)." judge;
  say "Proof. vm_cast_no_check (eq_refl (Some (observed, claims))). Qed.\n";
  say "(* The table is what the bytes denote, and they denote no other. *)";
  say "Theorem table_denoted : %s observed /\\" denotes;
  say "  forall other, %s other -> other = observed." denotes;
  say "Proof. exact (%s judged). Qed.\n" sound;
  let fresh = fresh_names () and names = ref [ "table_denoted" ] in
  List.iteri (fun k ->
      List.iter (fun (name, statement, proof) ->
          let name = fresh name in
          names := name :: !names;
          say "Theorem %s : %s." name statement;
          say "Proof. pose (it := %s judged %d%%nat eq_refl). exact (%s). Qed.\n" claim k proof))
    alone;
  say "(* What they say of people whose goods are divided as any ordered field has it. *)";
  let with_reals = ref [] in
  List.iteri (fun k ->
      List.iter (fun (name, statement, proof) ->
          let name = fresh name in
          names := name :: !names;
          with_reals := (name ^ " reals") :: !with_reals;
          say "Theorem %s : forall K, %s." name statement;
          say "Proof. intros K. pose (it := %s judged %d%%nat eq_refl K). exact (%s). Qed.\n" over k proof))
    of_people;
  foot out !names !with_reals;
  Buffer.contents out

(* ---- a table without a certificate ---- *)


(* A file about a table alone: a definition of what was found, how it is judged, and theorems. *)
let write_of_table ~what ~table_text tb definition judged stated =
  let out = Buffer.create 65536 in
  let say form = say_to out form in
  head out what "JudgeTable FitRatios";
  say "(* The bytes of the table. *)";
  say "Definition table_file : bytes := %s.\n" (literal table_text);
  say_table out tb;
  say "%s\n" definition;
  let call, found = judged in
  say "Lemma judged : %s = Some %s." call found;
  say "Proof. vm_cast_no_check (eq_refl (Some %s)). Qed.\n" found;
  let names = ref [] in
  List.iter (fun (name, statement, proof) ->
      names := name :: !names;
      say "Theorem %s : %s." name statement;
      say "Proof. exact (%s). Qed.\n" proof)
    stated;
  foot out !names [];
  Buffer.contents out

let table_denoted sound =
  ("table_denoted", "denotes table_file observed /\\ forall other, denotes table_file other -> other = observed",
   sprintf "proj1 (%s judged)" sound)

(* The pairs of observations that contradict each other, and how many there are by each axiom. *)
let write_pairs ~table_name ~table_text tb pairs counts =
  let related = "weak observed (by_own observed) s t /\\ strict observed (by_own observed) t s" in
  let within = "(s < size observed)%nat /\\ (t < size observed)%nat" in
  let all = "proj2 (judge_pairs_sound judged)" in
  let counted = [ ("garp_pairs_are", "pairs_in", "garp_pair"); ("garp_observations_are", "observations_in", "garp_pair");
                  ("wgarp_pairs_are", "pairs_in", "wgarp_pair"); ("warp_pairs_are", "pairs_in", "warp_pair");
                  ("sarp_pairs_are", "pairs_in", "sarp_pair") ] in
  let rec sides k l = if k = 0 then l else sprintf "proj2 (%s)" (sides (k - 1) l) in
  let count k (name, how, of_) =
    let from = sides k "judge_counts_sound judged" in
    (name, sprintf "%s observed (%s observed) %d" how of_ (List.nth counts k), if k = 4 then from else sprintf "proj1 (%s)" from) in
  write_of_table ~what:(sprintf "the pairs of the table %s" (comment table_name)) ~table_text tb
    (sprintf "(* Pairs of observations, counted from 0. *)\nDefinition pairs : list (nat * nat) := %s%%nat."
       ("[" ^ String.concat "; " (List.map (fun (s, t) -> sprintf "(%d, %d)" s t) pairs) ^ "]"))
    ("judge_pairs table_file", sprintf "(observed, (pairs, %s))" (whole_numbers counts))
    ([ table_denoted "judge_pairs_sound";
       ("contradicting_pairs", sprintf "forall s t, In (s, t) pairs <-> %s /\\\n  %s"
          within related, all) ]
     @ (if pairs = [] then
          [ ("no_two_contradict", sprintf "forall s t, ~ (%s /\\\n  %s)" within related, sprintf "fun s t => proj2 (%s s t)" all) ]
        else [])
     @ if counts = [] then [] else List.mapi count counted)

(* The money pump index, from a cycle that has it and values that bound all others. *)
let write_pump ~table_name ~table_text tb e index =
  write_of_table ~what:(sprintf "the money pump of the table %s" (comment table_name)) ~table_text tb
    (sprintf "(* The part of a cycle's expenditure that the next bundles cost; the cycle, from 0; values of the observations. *)\n"
     ^ sprintf "Definition evidence : ratio_evidence := RatioEvidence %s %s %s\n  %s." (number e.ratio_num) (number e.ratio_den)
         (whole_numbers e.ratio_walk) (folded "    " (List.map number e.ratio_values)))
    ("judge_pump table_file evidence", sprintf "(observed, %s)" (fraction index))
    [ table_denoted "judge_pump_sound";
      ("money_pump_is", sprintf "pump_index observed %s" (fraction index), "proj2 (proj2 (judge_pump_sound judged))") ]

(* ---- producers ---- *)

let bound_text = function
  | Shown (den, num, under, x, y) ->
      sprintf "Shown %s %s %s %s %s" (number den) (number num) (number under) (numbers x)
        (listed (fun (j, v) -> sprintf "(%s, %s)" (number j) (number v)) y)
  | Withheld -> "Withheld"
let place = function Some (t, s) -> sprintf "(Some (%d, %d)%%nat)" t s | None -> "None"

(* What the tests of producers say, and bounds on what an output costs; each with whether it is over every field. *)
let stated_of_producers plans questions found =
  let tb = "(used observed) (made_by observed)" and with_prices = "(used observed) (made_by observed) (sold_at observed)" in
  let judged = "cost_judged judged" in
  let priced = match plans with r :: _ -> r.plan_sold <> [] | [] -> false in
  let profit = "profit_judged judged eq_refl" in
  let axiom holds broken = function None -> holds | Some (t, s) -> broken t s in
  axiom
    [ ("cost_axiom_holds", None, (sprintf "cost_axiom %s" tb, sprintf "proj1 (%s)" judged));
      ("some_technology_over", Some (), (sprintf "some_technology K %s" tb, sprintf "proj2 (%s) K" judged)) ]
    (fun t s ->
      [ ("cheaper_for_as_much", None,
         (sprintf "made_by observed %d <= made_by observed %d /\\ cost (used observed) %d %d < cost (used observed) %d %d" t s t s t t,
          sprintf "conj (proj1 (%s)) (proj1 (proj2 (%s)))" judged judged));
        ("cost_axiom_broken", None, (sprintf "~ cost_axiom %s" tb, sprintf "proj1 (proj2 (proj2 (%s)))" judged));
        ("no_technology_over", Some (), (sprintf "no_technology K %s" tb, sprintf "proj2 (proj2 (proj2 (%s))) K" judged)) ])
    found.cost_pair
  @ (if not priced then [] else
       axiom
         [ ("profit_axiom_holds", None, (sprintf "profit_axiom %s" with_prices, sprintf "proj1 (%s)" profit));
           ("some_production_set_over", Some (), (sprintf "some_production_set K %s" with_prices, sprintf "proj2 (%s) K" profit)) ]
         (fun t s ->
           [ ("more_profit", None,
              (sprintf "profit %s %d %d < profit %s %d %d" with_prices t t with_prices t s, sprintf "proj1 (%s)" profit));
             ("profit_axiom_broken", None, (sprintf "~ profit_axiom %s" with_prices, sprintf "proj1 (proj2 (%s))" profit));
             ("no_production_set_over", Some (),
              (sprintf "no_production_set K %s" with_prices, sprintf "proj2 (proj2 (%s)) K" profit)) ])
         found.profit_pair)
  @ List.concat
      (List.mapi (fun k (((prices, out), _), (lower, upper)) ->
           let of_answer = sprintf "(costs_judged judged eq_refl %d%%nat eq_refl eq_refl K)" k in
           let at = sprintf "%s %s" (numbers prices) (number out) in
           (match lower with
            | Some v -> [ ("lower_cost_is", Some (), (sprintf "lower_cost K %s %s %s" tb at (fraction v), "proj1 " ^ of_answer)) ]
            | None -> [])
           @ [ (match upper with
                | Some u ->
                    ("upper_cost_is", Some (),
                     (sprintf "upper_cost K %s %s %s" tb at (fraction { qnum = u; qden = Z.one }), "proj2 " ^ of_answer))
                | None -> ("no_upper_cost_is", Some (), (sprintf "no_upper_cost K %s %s" tb (number out), "proj2 " ^ of_answer))) ])
         (List.combine questions found.answers))

let write_production ~production_name ~production_text plans questions found =
  let out = Buffer.create 65536 in
  let say form = say_to out form in
  head out (sprintf "the production %s" (comment production_name)) "JudgeProducers LinearPrograms Reals";
  say "(* The bytes of the file. *)";
  say "Definition production_file : bytes := %s.\n" (literal production_text);
  say "(* Of each observation the prices of the inputs, the inputs, the output and its price or none, in scaled units. *)";
  say "Definition observed : list plan := [\n  %s].\n" (String.concat ";\n  "
      (List.map (fun r -> sprintf "Plan %s %s %s %s" (numbers r.plan_prices) (numbers r.plan_inputs) (number r.plan_output)
           (numbers r.plan_sold)) plans));
  say "(* New input prices, outputs, and evidence of what these cost at least. *)";
  say "Definition questions : list question := [%s].\n" (String.concat ";\n  "
      (List.map (fun ((prices, out), b) -> sprintf "(%s, %s, %s)" (numbers prices) (number out) (bound_text b)) questions));
  let one = function Some q -> sprintf "Some %s" (fraction q) | None -> "None" in
  let whole = function Some u -> sprintf "Some %s" (number u) | None -> "None" in
  say "Definition answered : found := Found %s %s [%s].\n" (place found.cost_pair) (place found.profit_pair)
    (String.concat ";\n  " (List.map (fun (l, u) -> sprintf "(%s, %s)" (one l) (whole u)) found.answers));
  say "Lemma judged : judge_production production_file questions = Some (observed, answered).";
  say "Proof. vm_cast_no_check (eq_refl (Some (observed, answered))). Qed.\n";
  say "(* Production is what the bytes denote, and they denote no other. *)";
  say "Theorem production_is : production_denotes production_file observed /\\";
  say "  forall other, production_denotes production_file other -> other = observed.";
  say "Proof. exact (production_denoted judged). Qed.\n";
  let fresh = fresh_names () and names = ref [ "production_is" ] and over = ref [] in
  List.iter (fun (name, over_fields, (statement, proof)) ->
      let name = fresh name in
      names := name :: !names;
      if over_fields = None then begin
        say "Theorem %s : %s." name statement;
        say "Proof. exact (%s). Qed.\n" proof
      end else begin
        over := (name ^ " reals") :: !over;
        say "Theorem %s : forall K, %s." name statement;
        say "Proof. intros K. exact (%s). Qed.\n" proof
      end)
    (stated_of_producers plans questions found);
  foot out !names !over;
  Buffer.contents out

(* ---- menus ---- *)

let write_menus ~menus_name ~menus_text picks rounded e claim =
  let out = Buffer.create 65536 in
  let say form = say_to out form in
  head out (sprintf "the choices from menus %s" (comment menus_name))
    (if rounded = None then "JudgeMenus Reals" else "RoundedMenus Reals");
  say "(* The bytes of the file. *)";
  say "Definition menus_file : bytes := %s.\n" (literal menus_text);
  let listed_picks name l =
    say "Definition %s : list pick := [\n  %s].\n" name (String.concat ";\n  "
        (List.map (fun p -> sprintf "Pick %s %s %s" (numbers p.pick_menu) (number p.pick_choice) (number p.pick_times)) l)) in
  say "(* Of each record the menu, what was chosen, and how many times; letters by their bytes. *)";
  listed_picks "observed" picks;
  (match rounded with
   | None -> ()
   | Some (n, l) ->
       say "(* The same in units of 1/%s of each menu, by largest remainders; people are claimed to make these. *)" (number n);
       listed_picks "rounded" l);
  say "(* Rankings with their weights, and weights of what was chosen. *)";
  say "Definition evidence : menus_evidence := MenusEvidence %s [%s] %s [%s].\n" (number e.parts_den)
    (String.concat ";\n  " (List.map (fun (v, o) -> sprintf "(%s, %s)" (number v) (numbers o)) e.ranking_parts)) (number e.dual_den)
    (String.concat ";\n  "
       (List.map (fun ((m, x), w) -> sprintf "(%s, %s, %s)" (numbers m) (number x) (number w)) e.chosen_weights));
  let claimed = match claim with SomeRankings -> "SomeRankings" | NoRankings v -> sprintf "(NoRankings %s)" (fraction v) in
  let judge, found, sound, made =
    match rounded with
    | None -> ("judge_menus", sprintf "(observed, %s)" claimed, "judge_menus_sound judged", "observed")
    | Some (n, _) ->
        (sprintf "judge_menus_rounded %s" (number n), sprintf "(observed, (rounded, %s))" claimed,
         "judge_menus_rounded_sound judged", "rounded") in
  say "Lemma judged : %s menus_file evidence = Some %s." judge found;
  say "Proof. vm_cast_no_check (eq_refl (Some %s)). Qed.\n" found;
  say "(* The choices are what the bytes denote, and they denote no other. *)";
  say "Theorem menus_are : menus_denote menus_file observed /\\";
  say "  forall other, menus_denote menus_file other -> other = observed.";
  say "Proof. exact (proj1 (%s)). Qed.\n" sound;
  let names = ref [ "menus_are" ] and over = ref [] in
  (match rounded with
   | None -> ()
   | Some (n, _) ->
       names := "choices_rounded" :: !names;
       say "Theorem choices_rounded : rounded_choices %s observed rounded." (number n);
       say "Proof. exact (proj1 (proj2 (%s))). Qed.\n" sound);
  say "(* What is said of populations whose weights are numbers of any ordered field. *)";
  let it = if rounded = None then sprintf "proj2 (%s) K" sound else sprintf "proj2 (proj2 (%s)) K" sound in
  List.iter (fun (name, statement, proof) ->
      names := name :: !names;
      over := (name ^ " reals") :: !over;
      say "Theorem %s : forall K, %s." name statement;
      say "Proof. intros K. pose (it := %s). exact (%s). Qed.\n" it proof)
    (match claim with
     | SomeRankings -> [ ("rationalized", sprintf "rationalized_by_rankings K %s" made, "it") ]
     | NoRankings v ->
         [ ("not_rationalizable", sprintf "not_rationalizable_by_rankings K %s" made, "proj1 it");
           ("greatest_share_is", sprintf "greatest_share_of_rankings K %s %s" made (fraction v), "proj2 it") ]);
  foot out !names !over;
  Buffer.contents out

(* ---- random choices ---- *)

(* What a claim states of populations over every ordered field, and how it follows. *)
let stated_of_choices shares = function
  | SomePopulation ->
      [ ("choices_rationalized", sprintf "rationalized_by_population K kinds offers %s" shares, "it") ]
  | NoPopulation v ->
      [ ("choices_not_rationalizable", sprintf "not_rationalizable_by_any_population K kinds offers %s" shares, "proj1 it");
        ("greatest_share_is", sprintf "greatest_share K kinds offers %s %s" shares (fraction v), "proj2 it") ]
  | NothingOnChoices -> []

let choices_claim_text = function
  | SomePopulation -> "SomePopulation"
  | NoPopulation v -> sprintf "NoPopulation %s" (fraction v)
  | NothingOnChoices -> "NothingOnChoices"

let text_of bytes = literal (String.init (List.length bytes) (fun i -> Char.chr (Z.to_int (List.nth bytes i))))

(* The theorems on what the bytes denote and on the shares; [rounded] are N and the shares in units of 1/N. *)
let denoted_choices offers rounded =
  let sound = if rounded = None then "judge_choices_sound judged" else "judge_rounded_sound judged" in
  let many = List.length offers in
  [ ("budgets_denoted",
     "budgets_denote budgets_file names offers /\\\n"
     ^ "  forall names' offers', budgets_denote budgets_file names' offers' -> names' = names /\\ offers' = offers", sprintf "proj1 (proj1 (%s))" sound);
    ("choices_denoted",
     sprintf "choices_denote names %d choices_file records /\\\n  forall other, choices_denote names %d choices_file other -> other = records"
       many many, sprintf "proj2 (proj1 (%s))" sound);
    ("shares_observed", "observed_shares offers records shares", sprintf "proj1 (proj2 (%s))" sound) ]
  @ match rounded with
    | None -> []
    | Some (n, _) ->
        [ ("shares_rounded", sprintf "rounded_shares %s shares rounded" (number n), sprintf "proj1 (proj2 (proj2 (%s)))" sound) ]

let write_choices ~names:(budgets_name, choices_name, certificate_name) ~texts:(budgets_text, choices_text, certificate_text)
    goods offers records shares rounded claims =
  let out = Buffer.create 65536 in
  let say form = say_to out form in
  head out (sprintf "the choices %s from the budgets %s, from the certificate %s" (comment choices_name)
      (comment budgets_name) (comment certificate_name)) "Rounded Reals";
  say "(* The bytes of the three files. *)";
  say "Definition budgets_file : bytes := %s.\n" (literal budgets_text);
  say "Definition choices_file : bytes := %s.\n" (literal choices_text);
  say "Definition certificate_file : bytes := %s.\n" (literal certificate_text);
  let rows name kind one l = say "Definition %s : list %s := [\n  %s]." name kind (String.concat ";\n  " (List.map one l)) in
  let parts name l =
    rows name "share" (fun e -> sprintf "Share %d %s %s" e.on_budget (numbers e.on_sides) (fraction e.part)) l in
  say "(* The goods; prices and income of each budget, in scaled units; and of each record its budget, from 1, the bundle and";
  say "   how many times it was chosen. *)";
  say "Definition names : list bytes := %s." (listed text_of goods);
  say "Definition kinds : nat := %d%%nat." (List.length goods);
  rows "offers" "offer" (fun (p, w) -> sprintf "(%s, %s)" (numbers p) (number w)) offers;
  rows "records" "made"
    (fun r -> sprintf "Made %s %s %s" (number r.made_on) (numbers r.made_of) (number r.made_times)) records;
  say "(* The patches in which something was chosen: the budget, from 0; on which side of each budget they lie; and their part";
  say "   of what was chosen on their budget. *)";
  parts "shares" shares;
  (match rounded with
   | None -> ()
   | Some (n, l) ->
       say "(* The same with the parts in units of 1/%s, by largest remainders; people are claimed to make these. *)" (number n);
       parts "rounded" l);
  say "Definition seen : observed_choices := ObservedChoices names offers records shares.\n";
  say "Definition claims : list choices_claim := [%s].\n" (String.concat ";\n  " (List.map choices_claim_text claims));
  let judge, found =
    match rounded with
    | None -> ("judge_choices", "(seen, claims)")
    | Some (n, _) -> (sprintf "judge_rounded %s" (number n), "(seen, rounded, claims)") in
  say "Lemma judged : %s budgets_file choices_file certificate_file = Some %s." judge found;
  say "Proof. vm_cast_no_check (eq_refl (Some %s)). Qed.\n" found;
  say "(* Budgets and choices are what the bytes denote, and they denote no other; the shares are those of the choices. *)";
  let fresh = fresh_names () in
  let names = ref [] and over = ref [] in
  List.iter (fun (name, statement, proof) ->
      names := name :: !names;
      say "Theorem %s : %s." name statement;
      say "Proof. exact (%s). Qed.\n" proof)
    (denoted_choices offers rounded);
  say "(* What they say of populations whose goods are divided as any ordered field has it. *)";
  let of_claim, shares = if rounded = None then ("judged_choice", "shares") else ("judged_rounded", "rounded") in
  List.iteri (fun k claim ->
      List.iter (fun (name, statement, proof) ->
          let name = fresh name in
          names := name :: !names;
          over := (name ^ " reals") :: !over;
          say "Theorem %s : forall K, %s." name statement;
          say "Proof. intros K. pose (it := %s judged %d%%nat eq_refl K). exact (%s). Qed.\n" of_claim k proof)
        (stated_of_choices shares claim))
    claims;
  foot out !names !over;
  Buffer.contents out
