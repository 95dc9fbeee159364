package android.view.animation;

public class LayoutAnimationController {
    public static class AnimationParameters {
    }
}
