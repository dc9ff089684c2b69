// E0499: two threads call with one post.
fn main() {
    let mut board = msc::Board::new(2, 1).unwrap();
    let mut posts = board.posts();
    let post = &mut posts[0];
    std::thread::scope(|scope| {
        scope.spawn(|| post.send(2, "one", b""));
        scope.spawn(|| post.send(2, "two", b""));
    });
}
