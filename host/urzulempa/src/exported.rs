// What the library exports, as include/urzulempa.h declares it. Included where it is called.
extern "C" {
    fn urzulempa_explain(file: *const u8, file_len: usize, option: u64, room: *mut u8, room_len: usize) -> Answer;
    fn urzulempa_explain_plain(file: *const u8, file_len: usize, room: *mut u8, room_len: usize) -> Answer;
    fn urzulempa_explain_edition(file: *const u8, file_len: usize, edition: u64, option: u64, room: *mut u8, room_len: usize) -> Answer;
    fn urzulempa_explain_air(file: *const u8, file_len: usize, option: u64, room: *mut u8, room_len: usize) -> Answer;
    fn urzulempa_graphviz(file: *const u8, file_len: usize, option: u64, room: *mut u8, room_len: usize) -> Answer;
    fn urzulempa_check(file: *const u8, file_len: usize) -> Answer;
    fn urzulempa_nodes(file: *const u8, file_len: usize, list: *mut Node, list_len: usize) -> Answer;
    fn urzulempa_edges(file: *const u8, file_len: usize, list: *mut u16, list_len: usize) -> Answer;
    fn urzulempa_what_if(file: *const u8, file_len: usize, solvable: u64, reason: u64, list: *mut Node, list_len: usize) -> Answer;
    fn urzulempa_what_if_explain(file: *const u8, file_len: usize, solvable: u64, reason: u64, option: u64, room: *mut u8, room_len: usize) -> Answer;
    fn urzulempa_salvage(file: *const u8, file_len: usize, room: *mut u8, room_len: usize, list: *mut u16, list_len: usize) -> Salvaged;
    fn urzulempa_settings_read(file: *const u8, file_len: usize, version: u64) -> Settings;
    fn urzulempa_settings_set(room: *mut u8, room_len: usize, used: u64, version: u64, setting: u64, content: u64) -> Answer;
    fn urzulempa_write(rows: *const u8, rows_len: usize, room: *mut u8, room_len: usize) -> Answer;
    fn urzulempa_tgf(file: *const u8, file_len: usize, room: *mut u8, room_len: usize) -> Answer;
    fn urzulempa_tgf_read(text: *const u8, text_len: usize, nodes: *mut u32, nodes_len: usize, edges: *mut u32, edges_len: usize) -> TgfCounts;
    fn urzulempa_season(
        report: *mut u64,
        report_len: usize,
        file: *const u8,
        file_len: usize,
        edition: u64,
        option: u64,
        room: *mut u8,
        room_len: usize,
    ) -> Answer;
    fn urzulempa_join(report: *mut u64, report_len: usize, second: *const u64, second_len: usize) -> Answer;
}
