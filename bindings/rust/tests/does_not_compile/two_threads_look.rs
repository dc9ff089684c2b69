// E0277: two threads look at one post.
fn main() {
    let mut board = msc::Board::new(2, 1).unwrap();
    let posts = board.posts();
    let post = &posts[0];
    std::thread::scope(|scope| {
        scope.spawn(|| post.events().count());
        scope.spawn(|| post.events().count());
    });
}
