(* Reads a table, or budgets and choices, and a certificate; asks the checker that is proved; and writes its answer.
   What stands here is trusted: see README.md. *)
open Checker
module Z = Big

(* ---- words, files and the answer ---- *)

exception Ended of int * string

let read_file limit name =
  let failed () = raise (Ended (3, Printf.sprintf "%s: read failed" name)) in
  let channel = try open_in_bin name with Sys_error _ -> failed () in
  let room = Bytes.create 65536 and text = Buffer.create 65536 in
  let rec more () =
    match input channel room 0 65536 with
    | 0 -> ()
    | n -> Buffer.add_subbytes text room 0 n; if Buffer.length text <= limit then more ()
    | exception Sys_error _ -> failed ()
  in
  more ();
  close_in_noerr channel;
  if Buffer.length text > limit then raise (Ended (4, Printf.sprintf "%s: TooLong" name));
  Buffer.contents text

let each_byte = Array.init 256 Z.of_int
let bytes_of text =
  let rec go i kept = if i < 0 then kept else go (i - 1) (each_byte.(Char.code text.[i]) :: kept) in
  go (String.length text - 1) []

let fault_line (word, places) =
  String.concat " " (word :: List.map (fun (what, k) -> what ^ " " ^ Z.to_string k) places)

(* What is read of a file; the reading itself is in Coq. *)
let read limit reader name =
  match reader (bytes_of (read_file limit name)) with
  | Inr found -> found
  | Inl fault -> raise (Ended (4, name ^ ": " ^ fault_line fault))

let numbers_of reader name = read 4_194_304 reader name
let certificate_of reader name = read 16_777_216 reader name

let rejected item why place =
  let place = Z.min place (Z.of_string "4294967295") in
  (1, Printf.sprintf "rejected item %s %s place %s\n" (Z.to_string item) (reason_word why) (Z.to_string place))
let answer = function
  | Accepted (items, withheld) ->
      (0, Printf.sprintf "accepted items %s withheld %s\n" (Z.to_string items) (Z.to_string withheld))
  | Rejected (item, why, place) -> rejected item why place
  | NoTable -> raise (Ended (4, "no table"))
(* Of a certificate on goodness of fit, as rp-wide checkfit has it: nothing is withheld there. *)
let answer_on_fit = function
  | Accepted (items, _) -> (0, Printf.sprintf "accepted items %s\n" (Z.to_string items))
  | other -> answer other

(* A certificate on a table, whose own kind says which it is. *)
type on_table = On_tests of certificate | On_fit of fit_item list
let certificate_on table_name tb name =
  if is_fit (bytes_of (read_file 16_777_216 name)) then begin
    if tb.levels <> [] then raise (Ended (4, table_name ^ ": OwnLevels"));
    On_fit (certificate_of read_fit name)
  end else On_tests (certificate_of read_certificate name)

let check_table table_name certificate_name =
  let tb = numbers_of read_table table_name in
  match certificate_on table_name tb certificate_name with
  | On_tests certificate -> answer (check_certificate tb certificate)
  | On_fit items -> answer_on_fit (check_fit tb items)

let check_random budgets_name choices_name certificate_name per =
  let goods, offers = numbers_of read_budgets budgets_name in
  let made = numbers_of (read_choices goods offers) choices_name in
  match prepare offers made per with
  | NoChoices -> raise (Ended (4, "no choices"))
  | Refused why -> raise (Ended (4, fault_line (refusal_fault why)))
  | Prepared shares -> check_choices shares (certificate_of read_random certificate_name)

(* The theorems that an accepted certificate gives, on a table or on the table of a unit of a long file. *)
let theorem_of ?of_unit table_name table_text tb certificate_name =
  let certificate_text = read_file 16_777_216 certificate_name in
  let write claims = (0, Theorem.write ?of_unit ~table_name ~table_text ~certificate_name ~certificate_text tb claims) in
  match certificate_on table_name tb certificate_name with
  | On_tests certificate ->
      (match check_certificate tb certificate with
       | Accepted _ -> write (Theorem.On_tests (List.map claim_of certificate.items))
       | other -> answer other)
  | On_fit items ->
      match check_fit tb items with
      | Accepted _ -> write (Theorem.On_fit (List.map (fit_claim_of tb) items))
      | other -> answer other

let theorem table_name certificate_name =
  let table_text = read_file 4_194_304 table_name in
  theorem_of table_name table_text (numbers_of read_table table_name) certificate_name

(* The same of one unit of a long file. *)
let theorem_of_unit id_name id long_name certificate_name =
  let long_text = read_file 67_108_864 long_name in
  match read_unit (bytes_of id_name) (bytes_of id) (bytes_of long_text) with
  | None -> raise (Ended (4, long_name ^ ": no table of this unit"))
  | Some tb -> theorem_of ~of_unit:(id_name, id) long_name long_text tb certificate_name

(* The same of random choices; their shares are taken as they are, or rounded to units of 1/N. *)
let theorem_of_choices budgets_name choices_name certificate_name per =
  let text limit name = read_file limit name in
  let budgets_text = text 4_194_304 budgets_name and choices_text = text 4_194_304 choices_name in
  let certificate_text = text 16_777_216 certificate_name in
  let goods, offers = numbers_of read_budgets budgets_name in
  let made = numbers_of (read_choices goods offers) choices_name in
  match prepare offers made per with
  | NoChoices -> raise (Ended (4, "no choices"))
  | Refused why -> raise (Ended (4, fault_line (refusal_fault why)))
  | Prepared shares ->
      let items = certificate_of read_random certificate_name in
      match check_choices shares items with
      | Accepted _ ->
          let rounded = Option.map (fun n -> (n, shares_of shares)) per in
          (0, Theorem.write_choices ~names:(budgets_name, choices_name, certificate_name)
              ~texts:(budgets_text, choices_text, certificate_text) goods offers made
              (shares_of (make_shares offers made None)) rounded (List.map (choices_claim_of shares) items))
      | other -> answer other

(* The pairs of a table as theorems, and its money pump from what `rp pump` writes of it. *)
let theorem_of_pairs table_name =
  let table_text = read_file 4_194_304 table_name in
  ignore (numbers_of read_table table_name);
  match judge_pairs (bytes_of table_text) with
  | Some (tb, (pairs, counts)) -> (0, Theorem.write_pairs ~table_name ~table_text tb pairs counts)
  | None -> raise (Ended (4, "no table"))

let pump_of name =
  let lines = List.map (String.split_on_char ' ') (String.split_on_char '\n' (read_file 4_194_304 name)) in
  let after word = List.find_map (function w :: rest when w = word -> Some rest | _ -> None) lines in
  try
    match after "pump", after "cycle", after "values" with
    | Some [ index ], Some cycle, Some values ->
        let num, den = match String.split_on_char '/' index with [ a ] -> (a, "1") | [ a; b ] -> (a, b) | _ -> failwith "" in
        let num = Z.of_string num and den = Z.of_string den in
        { ratio_num = Z.sub den num; ratio_den = den; ratio_walk = List.map (fun s -> int_of_string s - 1) cycle;
          ratio_values = List.map Z.of_string values }
    | _ -> failwith ""
  with Failure _ | Invalid_argument _ -> raise (Ended (4, name ^ ": NoPump"))

let theorem_of_pump table_name result_name =
  let table_text = read_file 4_194_304 table_name in
  ignore (numbers_of read_table table_name);
  let evidence = pump_of result_name in
  match judge_pump (bytes_of table_text) evidence with
  | Some (tb, index) -> (0, Theorem.write_pump ~table_name ~table_text tb evidence index)
  | None -> (1, "rejected pump\n")

(* The tests of producers as theorems, and bounds of cost from what `rp cost` writes of them. *)
let questions_of name =
  let lines = List.map (String.split_on_char ' ') (String.split_on_char '\n' (read_file 4_194_304 name)) in
  let whole = Z.of_string in
  let rec until word before = function
    | w :: rest when w = word -> (List.rev before, rest)
    | w :: rest -> until word (w :: before) rest
    | [] -> failwith "" in
  let entry word = match String.split_on_char ':' word with [ j; v ] -> (whole j, whole v) | _ -> failwith "" in
  let pair value = function
    | "lower" :: "x" :: rest ->
        let x, rest = until "y" [] rest in
        let y, rest = until "over" [] rest in
        let num, under = match String.split_on_char '/' value with [ a ] -> (a, "1") | [ a; b ] -> (a, b) | _ -> failwith "" in
        let den = match rest with [ den ] -> whole den | _ -> failwith "" in
        Shown (den, whole num, whole under, List.map whole x, if y = [ "none" ] then [] else List.map entry y)
    | _ -> failwith "" in
  let rec go = function
    | ("bounds" :: "prices" :: line) :: rest ->
        let prices, line = until "output" [] line in
        let output, line = match line with output :: line -> (whole output, line) | [] -> failwith "" in
        (match line, rest with
         | "lower" :: "withheld" :: _, _ -> (((List.map whole prices, output), Withheld)) :: go rest
         | "lower" :: value :: _, next :: rest -> ((List.map whole prices, output), pair value next) :: go rest
         | _ -> go rest)
    | _ :: rest -> go rest
    | [] -> [] in
  try go lines with Failure _ | Invalid_argument _ -> raise (Ended (4, name ^ ": NoCost"))

let theorem_of_cost production_name result_name =
  let production_text = read_file 4_194_304 production_name in
  let questions = match result_name with Some name -> questions_of name | None -> [] in
  let judged questions = judge_production (bytes_of production_text) questions in
  match judged questions, judged [] with
  | Some (plans, found), _ ->
      let questions = if found.cost_pair = None then questions else [] in
      (0, Theorem.write_production ~production_name ~production_text plans questions found)
  | None, Some _ -> (1, "rejected cost\n")
  | None, None -> raise (Ended (4, production_name ^ ": no production"))

(* Choices from menus as theorems, from what `rp menus` writes of them; their shares are taken as they are, or rounded
   to units of 1/N. *)
let theorem_of_menus menus_name result_name per =
  let menus_text = read_file 4_194_304 menus_name in
  let picks = match read_menus (bytes_of menus_text) with
    | Some picks -> picks
    | None -> raise (Ended (4, menus_name ^ ": no menus")) in
  let lines = List.map (String.split_on_char ' ') (String.split_on_char '\n' (read_file 4_194_304 result_name)) in
  let once l = List.rev (List.fold_left (fun kept a -> if List.mem a kept then kept else a :: kept) [] l) in
  let chosen = List.filter (fun p -> Z.sign p.pick_times > 0) picks in
  let cells_of menu = List.filter_map (fun p -> if p.pick_menu = menu then Some p.pick_choice else None) chosen in
  let cells = List.concat_map (fun menu -> List.map (fun x -> (menu, x)) (once (cells_of menu)))
      (once (List.map (fun p -> p.pick_menu) chosen)) in
  let letter word = if String.length word = 1 then Z.of_int (Char.code word.[0]) else failwith "" in
  let rec part before = function
    | [ "weight"; v ] -> (Z.of_string v, List.rev before)
    | word :: rest -> part (letter word :: before) rest
    | [] -> failwith "" in
  let evidence () =
    let total = match List.concat (List.filter (fun l -> List.mem "alternatives" l) lines) with
      | [ _; _; _; _; _; _; _; _; _; total ] -> Z.of_string total
      | _ -> failwith "" in
    let parts = List.filter_map (function "part" :: rest -> Some (part [] rest) | _ -> None) lines in
    let made den dual_den chosen_weights =
      { parts_den = Z.mul den total; ranking_parts = parts; dual_den; chosen_weights } in
    match List.find_opt (fun l -> List.hd l = "menus") lines, List.find_opt (fun l -> List.hd l = "weights") lines with
    | Some [ _; "mixture"; "over"; den ], None -> made (Z.of_string den) Z.one []
    | Some (_ :: "violated" :: _), Some (_ :: weights) ->
        (match List.rev weights with
         | den :: "over" :: weights when List.length weights = List.length cells ->
             let den = Z.of_string den in
             made den den (List.combine cells (List.rev_map Z.of_string weights))
         | _ -> failwith "")
    | _ -> failwith "" in
  let evidence = try evidence () with Failure _ | Invalid_argument _ -> raise (Ended (4, result_name ^ ": NoMenus")) in
  let bytes = bytes_of menus_text in
  let judged = match per with
    | None -> Option.map (fun (picks, claim) -> (picks, None, claim)) (judge_menus bytes evidence)
    | Some n ->
        Option.map (fun (picks, (rounded, claim)) -> (picks, Some (n, rounded), claim)) (judge_menus_rounded n bytes evidence) in
  match judged with
  | Some (picks, rounded, claim) -> (0, Theorem.write_menus ~menus_name ~menus_text picks rounded evidence claim)
  | None -> (1, "rejected menus\n")

let usage =
  "usage: rp-second TABLE CERT\n       rp-second BUDGETS CHOICES CERT [--per N]\n       rp-second --theorem TABLE CERT\n"
  ^ "       rp-second --theorem BUDGETS CHOICES CERT [--per N]\n       rp-second --theorem --pairs TABLE\n"
  ^ "       rp-second --theorem --pump TABLE RESULT\n       rp-second --theorem --cost TECH [RESULT]\n"
  ^ "       rp-second --theorem --menus FILE RESULT [--per N]\n       rp-second --theorem --panel LONG ID CERT [--id NAME]"

(* The names of files, and N: `--per N` or `--per=N` anywhere, and after `--` all words are names. *)
let rec words_of names per = function
  | [] -> Some (List.rev names, per)
  | "--" :: rest -> if List.mem "" rest then None else Some (List.rev_append names rest, per)
  | "--per" :: n :: rest -> with_per names per n rest
  | word :: rest when String.length word > 6 && String.sub word 0 6 = "--per=" ->
      with_per names per (String.sub word 6 (String.length word - 6)) rest
  | word :: rest -> if word = "" || word.[0] = '-' then None else words_of (word :: names) per rest
and with_per names per n rest =
  let plain = n <> "" && String.for_all (fun c -> c >= '0' && c <= '9') n in
  let k = if plain then Z.of_string n else Z.zero in
  if per = None && Z.sign k > 0 && Z.leq k (Z.of_int 1_000_000_000) then words_of names (Some k) rest else None

let answer_to words =
  match words with
  | [ "--theorem"; "--pairs"; table ] when table <> "" -> theorem_of_pairs table
  | [ "--theorem"; "--panel"; long; id; certificate ] -> theorem_of_unit "household" id long certificate
  | [ "--theorem"; "--panel"; long; id; certificate; "--id"; name ] -> theorem_of_unit name id long certificate
  | "--theorem" :: "--menus" :: rest ->
      (match words_of [] None rest with
       | Some ([ menus; result ], per) -> theorem_of_menus menus result per
       | _ -> raise (Ended (2, "")))
  | [ "--theorem"; "--cost"; production ] when production <> "" -> theorem_of_cost production None
  | [ "--theorem"; "--cost"; production; result ] when production <> "" && result <> "" ->
      theorem_of_cost production (Some result)
  | [ "--theorem"; "--pump"; table; result ] when table <> "" && result <> "" -> theorem_of_pump table result
  | _ ->
      let theorems = words <> [] && List.hd words = "--theorem" in
      match words_of [] None (if theorems then List.tl words else words) with
      | Some ([ table; certificate ], None) when theorems -> theorem table certificate
      | Some ([ budgets; choices; certificate ], per) when theorems -> theorem_of_choices budgets choices certificate per
      | _ when theorems -> raise (Ended (2, ""))
      | Some ([ table; certificate ], None) -> check_table table certificate
      | Some ([ budgets; choices; certificate ], per) -> answer (check_random budgets choices certificate per)
      | _ -> raise (Ended (2, ""))

let () =
  let ended, out, line =
    try
      let ended, out = answer_to (List.tl (Array.to_list Sys.argv)) in
      (ended, out, "")
    with
    | Ended (2, _) -> (2, "", usage)
    | Ended (ended, line) -> (ended, "", "rp-second: " ^ line)
    | Out_of_memory | Stack_overflow -> (6, "", "rp-second: out of memory")
  in
  if line <> "" then prerr_endline line;
  let written = try print_string out; flush stdout; true with Sys_error _ -> close_out_noerr stdout; false in
  if not written then prerr_endline "rp-second: write failed";
  exit (if written then ended else 5)
