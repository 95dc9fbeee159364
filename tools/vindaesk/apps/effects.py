"""On what each attribute that is not mapped has an effect in Android: on no bounds, picture or touch; or on these. One
that is in no list is taken to have an effect on bounds."""
from typing import Dict, Tuple

from .report import Effect, Record

WORDS = {
    Effect.NONE: """
        accessibilityHeading accessibilityLiveRegion accessibilityPaneTitle accessibilityTraversalAfter
        accessibilityTraversalBefore allowUndo alwaysDrawnWithCache animateFirstView animateLayoutChanges
        animationCache autoLink autoText autofillHints bufferType capitalize completionThreshold contentDescription
        cursorVisible defaultFocusHighlightEnabled descendantFocusability digits drawingCacheQuality dropDownHeight
        dropDownHorizontalOffset dropDownSelector dropDownVerticalOffset dropDownWidth editable editorExtras
        filterTouchesWhenObscured fitsSystemWindows focusable focusableInTouchMode focusedByDefault
        forceHasOverlappingRendering freezesText hapticFeedbackEnabled imeActionId imeActionLabel imeOptions
        importantForAccessibility importantForAutofill inAnimation outAnimation inputMethod isScrollContainer
        keepScreenOn keyboardNavigationCluster labelFor layoutAnimation layoutMode linksClickable marqueeRepeatLimit
        name nestedScrollingEnabled nextFocusDown nextFocusForward nextFocusLeft nextFocusRight nextFocusUp numeric
        nextClusterForward overScrollMode password persistentDrawingCache phoneNumber popupBackground popupTheme
        privateImeOptions prompt saveEnabled screenReaderFocusable scrollbarAlwaysDrawHorizontalTrack
        scrollbarAlwaysDrawVerticalTrack scrollbarDefaultDelayBeforeFade scrollbarFadeDuration scrollbars
        scrollIndicators selectAllOnFocus smoothScrollbar soundEffectsEnabled spinnerMode stackFromBottom tag
        textCursorDrawable textEditPasteWindowLayout textEditSideNoPasteWindowLayout textEditSidePasteWindowLayout
        textEditSuggestionItemLayout textSelectHandle textSelectHandleLeft textSelectHandleRight tooltipText
        transcriptMode transitionGroup transitionName visible choiceMode checkedButton format
        flipInterval autoStart fastScrollEnabled fastScrollAlwaysVisible fastScrollStyle scrollingCache
        textFilterEnabled verticalScrollbarPosition touchscreenBlocksFocus longClickable pointerIcon
        hyphenationFrequency lineBreakStyle scrollX scrollY timeZone stretchMode addPrintersActivity
        horizontalScrollViewStyle dropDownAnchor dropDownVerticalOffset defaultWidth tabStripEnabled tabStripLeft
        tabStripRight autoSizePresetSizes autofillHighlight allowAutoRevokePermissionsExemption checkable valueFrom
        valueTo
    """,
    Effect.TEXT: """
        textSize fontFamily typeface textStyle textScaleX letterSpacing lineSpacingExtra lineSpacingMultiplier
        lineHeight includeFontPadding fontFeatureSettings fontVariationSettings elegantTextHeight breakStrategy
        fallbackLineSpacing justificationMode autoSizeTextType autoSizeMaxTextSize autoSizeMinTextSize
        autoSizeStepGranularity textFontWeight textLocale
    """,
    Effect.PICTURE: """
        alpha backgroundTint backgroundTintMode cacheColorHint childDivider childIndicator clipChildren clipToOutline
        cropToPadding divider dividerHeight drawableTint drawableTintMode drawSelectorOnTop duplicateParentState
        addStatesFromChildren elevation ellipsize fadeScrollbars fadingEdge fadingEdgeLength footerDividersEnabled
        foreground foregroundGravity foregroundInsidePadding foregroundTint foregroundTintMode forceDarkAllowed
        groupIndicator headerDividersEnabled indeterminate indeterminateBehavior indeterminateDuration
        indeterminateOnly indeterminateTint indeterminateTintMode indicatorLeft indicatorRight interpolator
        isIndicator layerType listSelector max min mirrorForRtl multiArrowColor outlineAmbientShadowColor
        outlineProvider outlineSpotShadowColor overScrollHeader overScrollFooter progress progressBackgroundTint
        progressBackgroundTintMode progressTint progressTintMode rating requiresFadingEdge rotation rotationX
        rotationY scaleX scaleY scaleType scrollbarSize scrollbarThumbHorizontal scrollbarThumbVertical
        scrollbarTrackHorizontal scrollbarTrackVertical secondaryProgress secondaryProgressTint shadowColor shadowDx
        shadowDy shadowRadius splitTrack stateListAnimator stepSize switchTextAppearance textAlignment
        textColorHighlight textColorLink textColorHint textDirection thumbOffset thumbTint thumbTintMode tickMark
        tickMarkTint tint tintMode trackTint trackTintMode transformPivotX transformPivotY translationX translationY
        translationZ verticalScrollbarPosition windowBackground dial hand_hour hand_minute checkMarkTint buttonTint
        buttonTintMode checkMarkTintMode allowSingleTap bottomOffset topOffset gestureColor uncertainGestureColor
        fadeOffset fadeDuration fadeEnabled
    """,
    Effect.TOUCH: "enabled contextClickable textIsSelectable onClick",
}
# those of libraries
LIBRARY_WORDS = {
    Effect.NONE: """
        layout_behavior layout_scrollFlags layout_scrollInterpolator layout_collapseMode
        layout_collapseParallaxMultiplier layout_dodgeInsetEdges layout_insetEdge layout_keyline statusBarScrim
        hideOnScroll liftOnScroll popupTheme navigationContentDescription collapseContentDescription
        hintAnimationEnabled passwordToggleContentDescription motionDebug tabMode tabContentStart
        animate_relativeTo defaultNavHost navGraph barrierAllowsGoneWidgets layout_constraintTag showIn
        behavior_hideable behavior_skipCollapsed enableSwipe singleSelection cardPreventCornerOverlap
        fontProviderAuthority fontProviderPackage fontProviderQuery queryHint searchHintIcon voiceIcon closeIcon
        goIcon commitIcon submitBackground queryBackground fastScrollEnabled spanCount stackFromEnd reverseLayout
        layoutManager layout_editor_absoluteX layout_editor_absoluteY checkedButton checkedChip selectionRequired toolbarId
        counterMaxLength endIconContentDescription startIconContentDescription endIconCheckable startIconCheckable
        enforceMaterialTheme enforceTextAppearance layout_optimizationLevel fabAlignmentMode fabAnimationMode
        autoSizeText motionProgress onHide onShow applyMotionScene currentState
        errorContentDescription
    """,
    Effect.TEXT: """
        helperTextTextAppearance prefixTextAppearance suffixTextAppearance
        fontFamily autoSizeTextType autoSizeMaxTextSize autoSizeMinTextSize autoSizeStepGranularity lineHeight
        titleTextAppearance subtitleTextAppearance autoSizePresetSizes tabTextAppearance
    """,
    Effect.PICTURE: """
        backgroundTint backgroundTintMode tint tintMode buttonTint buttonTintMode drawableTint drawableTintMode
        elevation cardElevation cardMaxElevation cardCornerRadius rippleColor borderWidth contentScrim
        collapsedTitleTextAppearance expandedTitleTextAppearance expandedTitleMarginStart expandedTitleMarginEnd
        expandedTitleMarginTop expandedTitleMarginBottom expandedTitleMargin expandedTitleGravity
        collapsedTitleGravity tabIndicatorColor tabIndicatorHeight tabSelectedTextColor tabTextColor titleTextColor
        subtitleTextColor itemIconTint itemTextColor itemBackground strokeColor strokeWidth cornerRadius thumbTint
        trackTint titleEnabled insetForeground foregroundInsidePadding hintTextAppearance errorTextAppearance
        counterTextAppearance borderWidth hoveredFocusedTranslationZ pressedTranslationZ labelVisibilityMode menu
        headerLayout boxBackgroundColor boxStrokeColor shapeAppearance shapeAppearanceOverlay iconTint iconTintMode
        hintTextColor boxCornerRadiusTopStart boxCornerRadiusTopEnd boxCornerRadiusBottomStart boxCornerRadiusBottomEnd
        boxStrokeWidth boxStrokeWidthFocused startIconTint endIconTint chipBackgroundColor chipStrokeColor
        chipStrokeWidth chipIconTint chipSurfaceColor chipCornerRadius closeIconTint trackColor indicatorColor
        trackCornerRadius thumbColor trackColorActive trackColorInactive haloColor tickColor tickColorActive
        tickColorInactive dividerColor tabRippleColor tabIndicator tabIndicatorGravity tabIndicatorFullWidth tabGravity
        tabIconTint itemRippleColor itemTextAppearanceActive itemTextAppearanceInactive itemShapeAppearance
        statusBarForeground statusBarBackground cardForegroundColor checkedIcon checkedIconTint
        materialThemeOverlay
    """,
}
PLATFORM: Dict[str, Effect] = {name: effect for effect, names in WORDS.items() for name in names.split()}
LIBRARY: Dict[str, Effect] = {name: effect for effect, names in LIBRARY_WORDS.items() for name in names.split()}
# what classes of some kinds alone read: where a rule does not look for one, its class does not
OF_SOME_CLASSES = {
    "android:" + name for name in """
        adjustViewBounds autoText baselineAligned baselineAlignedChildIndex button checkMark checked collapseColumns
        columnCount columnWidth dividerPadding drawableBottom drawableEnd drawableLeft drawablePadding drawableRight
        drawableStart drawableTop ems entries fillViewport gravity height hint horizontalSpacing inputType lines
        maxEms maxHeight maxLength maxLines maxWidth measureAllChildren measureWithLargestChild minEms minLines
        numColumns numStars orientation rowCount scrollHorizontally showDividers shrinkColumns singleLine src
        stretchColumns switchMinWidth switchPadding text textAllCaps textAppearance textColor textOff textOn
        thumbTextPadding verticalSpacing weightSum width clipToPadding splitMotionEvents
    """.split()
}
# items of a style that count for bounds, for each class that reads them
IN_STYLES = {"android:" + name for name in (
    "maxWidth", "maxHeight", "adjustViewBounds", "measureWithLargestChild", "measureAllChildren", "fillViewport",
    "scrollHorizontally",
)}
WHY = {
    Effect.BOUNDS: "there is no rule for it",
    Effect.TEXT: "a text has the cells of 6 by 8 pixels",
    Effect.PICTURE: "it is not shown",
    Effect.TOUCH: "touches do not know it",
}
REASONS = {
    "android:ellipsize": "a text that is cut off ends without an ellipsis",
    "android:scaleType": "a picture is one colour over the whole view",
    "android:alpha": "views are not translucent as a whole",
    "android:elevation": "there are no shadows",
    "android:foreground": "there are no foregrounds",
}


def effect_of(key: str) -> Effect:
    """On what an attribute has an effect."""
    prefix, _, name = key.rpartition(":")
    if prefix == "android":
        return PLATFORM.get(name, Effect.BOUNDS)
    if prefix == "app":
        return LIBRARY.get(name, PLATFORM.get(name, Effect.BOUNDS))
    return Effect.NONE


def fate_of_rest(record: Record, key: str, parent: str, is_known: bool) -> None:
    """Says of an attribute that nothing has used what becomes of it, by the class of the parent, and whether the
    class of the view itself is in the table."""
    if key.startswith("tools:"):
        record.no_effect(key, "it is for design tools alone")
        return
    if parent and key.rpartition(":")[2].startswith("layout_") and is_foreign(key, parent):
        record.no_effect(key, "a %s does not read it" % parent)
        return
    if is_known and key in OF_SOME_CLASSES:
        record.no_effect(key, "a %s does not read it" % record.row)
        return
    effect = effect_of(key)
    if effect is Effect.NONE:
        record.no_effect(key, "it has no effect on bounds, pictures or touches")
    else:
        record.leave_out(key, REASONS.get(key, WHY[effect]), effect)


# which attributes of a child the parents of some classes read
READ_BY: Dict[str, Tuple[str, ...]] = {
    "FrameLayout": ("gravity",),
    "LinearLayout": ("gravity", "weight"),
    "ScrollView": ("gravity",),
    "AbsoluteLayout": ("x", "y"),
    "TableLayout": ("gravity", "weight"),
}


def is_foreign(key: str, parent: str) -> bool:
    """Whether a parent of some class does not read an attribute of its children."""
    name = key.rpartition(":")[2][len("layout_") :]
    if parent in READ_BY:
        return name not in READ_BY[parent]
    if parent == "ConstraintLayout":
        return key.startswith("android:")
    if parent == "RelativeLayout":
        return name in ("gravity", "weight") or name.startswith("constraint")
    return False
